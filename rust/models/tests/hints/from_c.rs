//! Lines of C, and instructions of processors.

use crate::{headers, line, lines, offered, three};

#[test]
fn fences() {
    let full = "a fence is the line 'fence', with nothing else on it";
    lines(full, &["FENCE", "Fence", "fence()", "fence();", "fence(seq_cst)", "fence sy", "fence rw, rw"]);
    lines(full, &["mfence", "end: MFENCE", "dmb", "dmb ish", "DMB SY", "__DMB();", "mfence // full"]);
    lines(
        full,
        &["smp_mb()", "smp_mb();", "mb()", "__sync_synchronize()", "_mm_mfence();", "MemoryBarrier();"],
    );
    lines(full, &["sync", "hwsync", "dsb", "dsb sy", "DSB ISH"]);
    lines(
        full,
        &[
            "atomic_thread_fence(memory_order_seq_cst);",
            "atomic_thread_fence(std::memory_order_seq_cst);",
            "atomic_thread_fence(memory_order::seq_cst)",
            "__atomic_thread_fence(__ATOMIC_SEQ_CST);",
            "fence(Ordering::SeqCst);",
        ],
    );
    assert_eq!(offered("mfence"), ["fence"]);
    lines("did you mean 'fence'?", &["fense", "fecne", "fences", "Fences()"]);
    lines("a comment starts with #", &["fence // full"]);
    lines("a line ends without ';', and only one stands on a line", &["fence;"]);
}

/// The first module is a label to the reader.
#[test]
fn a_fence_with_its_modules_in_front_is_one_too() {
    lines(
        "a fence is the line 'fence', with nothing else on it",
        &[
            "std::atomic_thread_fence(std::memory_order_seq_cst);",
            "std::sync::atomic::fence(Ordering::SeqCst);",
            "std::sync::atomic::fence(std::sync::atomic::Ordering::SeqCst);",
            "atomic::fence(SeqCst)",
            "end: atomic::fence(SeqCst)",
        ],
    );
    lines(
        "leave this fence out: all accesses of a model are acquire and release",
        &["std::atomic_thread_fence(std::memory_order_acquire);", "atomic::fence(Ordering::Release)"],
    );
    for text in [
        "std::atomic_thread_fence(std::memory_order_relaxed)",
        "std::atomic_thread_fence(std::memory_order_consume)",
        "std::sync::atomic::compiler_fence(Ordering::SeqCst)",
        "std::atomic_signal_fence(std::memory_order_seq_cst)",
        "end: : fence.i",
        "std::",
        "::fence()",
    ] {
        assert_eq!(line(text), None, "{text}");
    }
}

#[test]
fn a_fence_shares_its_line_with_nothing() {
    lines(
        "a fence is the line 'fence', with nothing else on it",
        &["fence x", "fence(x)", "fence r1", "fence mine", "fence 1", "fence fence", "fence x := 1"],
    );
    lines(
        "a fence is the line 'fence', with nothing else on it",
        &["x := 1 fence", "r1 := x fence", "wait(x = 1) fence", "goto again fence", "x := 1 fence()"],
    );
    lines(
        "leave this fence out: all accesses of a model are acquire and release",
        &["x := 1 fence(acquire)"],
    );
    for text in ["fence y", "fence(0)", "fence x, x", "fence(x, x)", "fence.i", "x := 1 fence w, w"] {
        assert_eq!(line(text), None, "{text}");
    }
}

/// A read-modify-write of a location that only fences use is one too, but a longer line than it takes.
#[test]
fn fences_of_older_models() {
    let plain = "a fence is the line 'fence', and needs no location";
    lines(plain, &["r3 := FADD(f, 0)", "BCAS(f, 0 -> 0)", "r3 := CAS(f, 0 -> 0)"]);
    lines("did you mean 'flag'?", &["r3 := FADD(flg, 0)"]);
    lines("a fence is the line 'fence', with nothing else on it", &["r3 := FADD(fence, 0)", "r3 := fence"]);
    let found = "a register gets the value found: 'rN := FADD(..)', where rN is a free register";
    lines(&format!("{found}; a fence is the line 'fence'"), &["FADD(x, 0)", "FADD(f, 0)", "FADD(fence, 0)"]);
    lines(found, &["FADD(x, 1)"]);
    for text in ["r3 := FADD(f, 1)", "BCAS(f, 0 -> 1)", "wait(f = 0)"] {
        assert_eq!(line(text), None, "{text}");
    }
}

#[test]
fn a_fence_is_no_name() {
    let other = "a fence is the line 'fence', and needs no location: take another name for anything else";
    lines(other, &["fence := 1"]);
    let label = "a fence is the line 'fence': take another name for the label";
    lines(label, &["fence:", "fence: x := 1", "end: fence: x := 1", "goto fence", "if r1 goto fence"]);
    headers(other, &["values 2\nlocations x fence\n", "values 2\nconstants fence = 1\n"]);
    headers(other, &["values 2\nregisters fence = r1\n"]);
}

#[test]
fn a_fence_without_room_has_a_way_to_get_it() {
    let text = "values 2\nlocations a b c d e f g h i j k l m n o p\nthread\nfence\n";
    let room = "a fence has a location of its own, and 16 are the most: leave one out of 'locations'";
    headers(room, &[text]);
}

/// A full fence in its place would be stronger.
#[test]
fn a_weaker_fence_does_not_become_a_full_one() {
    lines(
        "leave this fence out: all accesses of a model are acquire and release",
        &[
            "atomic_thread_fence(memory_order_acquire);",
            "atomic_thread_fence(memory_order_release)",
            "atomic_thread_fence(memory_order_acq_rel)",
            "__atomic_thread_fence(__ATOMIC_ACQ_REL)",
            "fence acquire",
            "fence(release);",
            "fence(Ordering::AcqRel)",
            "smp_rmb()",
            "smp_wmb();",
            "lfence",
            "SFENCE",
            "lwsync",
            "dmb ishst",
            "DMB ISHLD",
            "fence.tso",
        ],
    );
    for text in [
        "dsb ishst",
        "dmb nsh",
        "fence w, w",
        "fence r, rw",
        "__threadfence()",
        "fence(relaxed)",
        "atomic_thread_fence(order)",
        "atomic_signal_fence()",
        "pfence",
    ] {
        assert_eq!(line(text), None, "{text}");
    }
}

/// In C it depends on the type of x whether this is one atomic step: an FADD alone might be stronger.
#[test]
fn changes_in_place() {
    let wraps = |added: u8, less: u8| format!("; sums wrap: with 'values 3', '+ {added}' takes {less} away");
    lines(&three("1"), &["x++", "x++;", "++x", "++x;", "end: x++", "x += 1", "x += 1;", "x++ // why"]);
    lines(&three("full"), &["x += full"]);
    lines(&three("mine"), &["x += mine"]);
    lines(&(three("2") + &wraps(2, 1)), &["x--", "x--;", "--x", "x -= 1"]);
    lines(&(three("1") + &wraps(1, 2)), &["x -= 2"]);
    lines("write 'r1 := r1 + 1'", &["r1++", "++r1;", "r1 += 1"]);
    lines("write 'mine := mine + r2'", &["mine += r2"]);
    lines(&("write 'r1 := r1 + 2'".to_string() + &wraps(2, 1)), &["r1--", "--r1", "r1 -= 1"]);
    let fetched = |a: &str| {
        format!(
            "if it is one atomic step, write 'r1 := FADD(x, {a})'; \
             else a read, a sum in a free register and a write"
        )
    };
    lines(&fetched("1"), &["r1 := x++", "r1 := x++;"]);
    lines(&(fetched("2") + &wraps(2, 1)), &["r1 := x--"]);
    lines("a comment starts with #", &["x -- why", "-- why", "--x is why", "x := 1 -- why"]);
}

#[test]
fn functions_on_atomics() {
    let is_free = ", where rN is a free register";
    lines("a load is a line of its own: 'r0 := x'", &["r0 := atomic_load(&x);", "r0 := load(x)"]);
    lines("a load is a line of its own: 'mine := x'", &["mine := load(x)"]);
    lines(
        &format!("a load is a line of its own: 'rN := x'{is_free}"),
        &["load(x)", "x := load(flag)", "if load(x) goto again"],
    );
    lines("a store is the line 'x := 1'", &["atomic_store(&x, 1);", "store(x, 1)", "STORE(x, 1)"]);
    lines("a fetch-and-add is the line 'r0 := FADD(x, 1)'", &["r0 := atomic_fetch_add(&x, 1)"]);
    lines(&format!("a fetch-and-add is the line 'rN := FADD(x, 1)'{is_free}"), &["fetch_add(x, 1)"]);
    lines(&compare_exchange("r0", ""), &["r0 := atomic_compare_exchange_strong(&x, &e, 1)"]);
    lines(&compare_exchange("rN", is_free), &["if compare_exchange_strong(&x, &e, 1) goto again"]);
    lines(
        "an exchange is a loop: 'rN := FADD(x, 0)', then 'rM := CAS(x, rN -> 1)', \
         and again if rM is not rN, where rN and rM are free registers",
        &["r0 := XCHG(x, 1)", "r0 := atomic_exchange(&x, 1)", "swap(x, 1)"],
    );
    for text in [
        "r0 := load",
        "store := 1",
        "swap",
        "loads(x)",
        "wait(load(x) = 1)",
        "goto store",
        "atomic_fetch_or(x, 1)",
    ] {
        assert_eq!(line(text), None, "{text}");
    }
}

fn compare_exchange(reg: &str, after: &str) -> String {
    format!("a compare-exchange is the line '{reg} := CAS(x, 0 -> 1)': {reg} gets the value found{after}")
}

/// It may fail where a CAS does not.
#[test]
fn a_weak_compare_exchange_is_one_in_a_loop() {
    let weak = compare_exchange("r0", "; a weak one only in a loop that tries again");
    lines(&weak, &["r0 := atomic_compare_exchange_weak(&x, &e, 1)"]);
    lines(
        &weak,
        &["r0 := atomic_compare_exchange_weak_explicit(&x, &e, 1, memory_order_acq_rel, memory_order_acquire)"],
    );
}

/// A line in its place would be stronger.
#[test]
fn a_relaxed_access_gets_no_line() {
    let none = "all accesses of a model are acquire and release: \
                it has no relaxed ones, and a verdict says nothing about them";
    for order in [
        "memory_order_relaxed",
        "memory_order_consume",
        "std::memory_order_relaxed",
        "memory_order::relaxed",
        "relaxed",
        "order",
        "5",
        "memory_order_relaxed /* acquire */",
        "weak ? memory_order_relaxed : memory_order_acquire",
    ] {
        lines(
            none,
            &[
                &format!("r0 := atomic_load_explicit(&x, {order});"),
                &format!("load(x, {order})"),
                &format!("store(x, (r0 + 1) / 2, {order});"),
                &format!("atomic_store_explicit(&x, f(1, 2), {order})"),
                &format!("r0 := atomic_fetch_add_explicit(&x, 1, {order})"),
                &format!("r0 := atomic_exchange_explicit(&x, 1, {order})"),
                &format!("r0 := compare_exchange_strong(x, e, 1, {order})"),
                &format!(
                    "r0 := atomic_compare_exchange_weak_explicit(&x, &e, 1, memory_order_seq_cst, {order})"
                ),
            ],
        );
    }
    // Without its operand, and without its order.
    lines(none, &["r0 := load(memory_order_relaxed)", "r0 := atomic_load_explicit(&x)"]);
    assert_eq!(line("r0 := CAS(x, 0, 1, memory_order_relaxed)"), None);
    assert_eq!(line("r0 := FADD(x, 1, memory_order_relaxed)"), None);
}

#[test]
fn an_access_of_a_stronger_order_gets_its_line() {
    let load = "a load is a line of its own: 'r0 := x'";
    lines(load, &["r0 := atomic_load_explicit(&x, memory_order_acquire);", "r0 := load(x, acquire)"]);
    lines(
        load,
        &["r0 := atomic_load_explicit(&x, memory_order_seq_cst)", "r0 := load(x, std::memory_order_acquire)"],
    );
    let store = "a store is the line 'x := 1'";
    lines(
        store,
        &["atomic_store_explicit(&x, 1, memory_order_release)", "store(x, f(1, 2), memory_order::seq_cst)"],
    );
    let add = "a fetch-and-add is the line 'r0 := FADD(x, 1)'";
    lines(add, &["r0 := atomic_fetch_add_explicit(&x, 1, memory_order_acq_rel) // relaxed, relaxed"]);
    // Half of the access is relaxed in C.
    let half = "; it is acq_rel, make it so in C too";
    lines(
        &format!("{add}{half}"),
        &[
            "r0 := atomic_fetch_add_explicit(&x, 1, memory_order_acquire)",
            "r0 := atomic_fetch_add_explicit(&x, 1, memory_order_release)",
        ],
    );
    lines(
        &compare_exchange("r0", half),
        &["r0 := atomic_compare_exchange_strong_explicit(&x, &e, 1, memory_order_acquire, memory_order_acquire)"],
    );
}

#[test]
fn loops_and_branches() {
    lines(
        "a loop is a label and 'goto'; one that only reads until it finds one value is 'wait(x = 1)'",
        &["while (x != 1) ;", "while (1) {", "for (;;)", "do {", "do", "end: while x"],
    );
    lines("there is no 'else': branches are labels and 'goto'", &["else", "else {", "else if (r0)"]);
    lines(
        "there are no blocks: branches and loops are labels and 'goto'",
        &["{", "}", "} else {", "if r0 {", "x := 1 }", "} while (r0);"],
    );
    lines(
        "put a label at the end of the thread, 'end:', and write 'goto end'",
        &["return", "return;", "if r0 return"],
    );
    lines("put a label where it goes on, and 'goto' that", &["break;", "continue", "if r0 break"]);
    for text in ["for := 1", "goto return", "x := 1 else", "whiles", "do_it()"] {
        assert_eq!(line(text), None, "{text}");
    }
}

#[test]
fn negations_and_waits() {
    lines("there is no '!': write 'r0 := r1 = 0'", &["r0 := !r1", "r0 := ! r1"]);
    lines("there is no '!': write 'r1 := mine = 0'", &["r1 := !mine"]);
    lines("there is no '!': write 'r0 := x', then 'r0 := r0 = 0'", &["r0 := !x"]);
    lines(
        "there is no '!': write 'rN := r0 = 0', then 'if rN goto ..', where rN is a free register",
        &["if !r0 goto again", "if !x goto again"],
    );
    lines("work the value out in a free register first", &["x := !r1", "x := !x"]);
    lines(
        "a wait is for one value, such as 'wait(x = 0)' or 'wait(x = 1)'; where several will do, write a loop",
        &["wait(x)", "wait(x);", "wait(!x)"],
    );
}

//! The explanation as data: its text is JSON, and what stands there is what the explanation has.

use explain::{Explanation, Json, Relation};

use crate::reader::{read, Value};
use crate::reported::{explained, model, models_not_robust};

fn data(explanation: &Explanation) -> Value {
    let text = explanation.json().to_string();
    read(&text).unwrap_or_else(|| panic!("no JSON: {text}"))
}

#[test]
fn a_value_has_its_text() {
    let object = Json::Object(vec![("a", Json::List(vec![])), ("b", Json::Null), ("c", Json::Bool(true))]);
    for (value, text) in [
        (Json::Object(vec![]), "{}"),
        (Json::list([1_usize, 20], Json::from), "[1,20]"),
        (object, r#"{"a":[],"b":null,"c":true}"#),
        (Json::from("a\"b\\c/d"), r#""a\"b\\c/d""#),
        (Json::from("\n\t\u{1f}\u{7f}é\u{1f600}"), "\"\\u000a\\u0009\\u001f\u{7f}é\u{1f600}\""),
        (Json::from(None::<usize>), "null"),
        (Json::from(Some(3_u8)), "3"),
    ] {
        assert_eq!(value.to_string(), text);
    }
}

#[test]
fn every_text_comes_back() {
    let texts = [
        "",
        "plain",
        "\"",
        "\\",
        "\\\"",
        "a\r\n\tb",
        "\0\u{1}\u{1f} ",
        "ünïcode \u{2028}\u{10ffff}",
        "\\u0041",
    ];
    for text in texts {
        assert_eq!(read(&Json::from(text).to_string()), Some(Value::Text(text.into())), "{text:?}");
    }
}

#[test]
fn the_reader_of_these_tests_refuses_what_is_no_json() {
    for text in
        ["", "[1", "[1,]", "{\"a\"}", "{\"a\":1,}", "\"\n\"", "\"\\x\"", "\"\\u12\"", "nul", "1 2", "{a:1}"]
    {
        assert_eq!(read(text), None, "{text}");
    }
}

#[test]
fn store_buffering_is_this_data() {
    let data = data(&explained(&model("sb")));
    assert_eq!(
        data.names().join(" "),
        "format verdict disassembled locations steps events modification_orders stale cycle help"
    );
    assert_eq!(data.text_of("verdict"), "not_robust");
    assert_eq!(data.number("format"), Some(2));
    assert_eq!(data.get("disassembled"), &Value::Word("false"));
    assert_eq!(data.get("locations").items(), [Value::Text("x".into()), Value::Text("y".into())]);
    let step = data.get("steps").at(1);
    assert_eq!(["step", "thread", "line", "event"].map(|name| step.number(name)), [2, 1, 8, 3].map(Some));
    assert_eq!(step.text_of("statement"), "r0 := y");
    let stale = data.get("stale");
    assert_eq!(["event", "picked", "newest"].map(|name| stale.number(name)), [5, 0, 2].map(Some));
    let start = data.get("events").at(0);
    for name in ["step", "thread", "line", "read", "reads_from"] {
        assert_eq!(start.get(name), &Value::Word("null"), "{name}");
    }
    assert_eq!((start.text_of("kind"), start.number("written")), ("write", Some(0)));
    let read = data.get("events").at(5);
    assert_eq!((read.text_of("kind"), read.text_of("location"), read.number("read")), ("read", "x", Some(0)));
    assert_eq!((read.number("reads_from"), read.get("written")), (Some(0), &Value::Word("null")));
    assert_eq!(data.get("modification_orders").at(0).numbers(), [0, 2]);
}

#[test]
fn the_trials_of_store_buffering_are_this_data() {
    let data = data(&explained(&model("sb")));
    let help = data.get("help");
    assert_eq!(help.number("checks"), Some(6));
    assert_eq!(help.names().join(" "), "fences updates enough checks");
    let verdicts =
        |name| help.get(name).items().iter().map(|trial| trial.text_of("verdict")).collect::<Vec<_>>();
    assert_eq!(verdicts("fences"), ["not_robust", "not_robust", "robust"]);
    assert_eq!(verdicts("updates"), ["not_robust", "not_robust", "not_robust", "no_line", "no_line"]);
    let fence = help.get("enough").get("changes").at(1);
    assert_eq!(["thread", "after_line", "before_line"].map(|name| fence.number(name)), [2, 10, 11].map(Some));
    assert_eq!(fence.text_of("change"), "fence");
    let update = help.get("updates").at(0).get("changes").at(0);
    assert_eq!(["thread", "line"].map(|name| update.number(name)), [1, 8].map(Some));
    assert_eq!(update.text_of("change"), "update");
}

#[test]
fn the_location_of_the_fences_has_its_name() {
    let data = data(&explained(&model("sb+fence")));
    let names = ["x", "y", "fence"].map(|name| Value::Text(name.into()));
    assert_eq!(data.get("locations").items(), names);
    assert_eq!(data.get("modification_orders").at(2).numbers(), [2, 4]);
    let fence = data.get("events").at(4);
    assert_eq!((fence.text_of("kind"), fence.text_of("location")), ("update", "fence"));
    assert_eq!(["read", "written", "reads_from"].map(|name| fence.number(name)), [0, 0, 2].map(Some));
    assert_eq!(data.get("steps").at(1).text_of("statement"), "fence");
}

/// Every step, event and edge of every model, against the explanation.
#[test]
fn the_data_of_every_model_is_that_of_its_graph() {
    for reported in models_not_robust() {
        let explanation = explained(&reported);
        let (data, execution) = (data(&explanation), explanation.execution());
        let (steps, events) = (data.get("steps").items(), data.get("events").items());
        assert_eq!((steps.len(), events.len()), (execution.steps.len(), execution.events.len()));
        for (place, event) in execution.events.iter().enumerate() {
            let found = &events[place];
            assert_eq!(found.number("id"), Some(place));
            assert_eq!(found.number("reads_from"), event.source);
            assert_eq!(found.number("step"), event.step.map(|step| step + 1));
            assert_eq!(found.number("read"), event.read.map(usize::from));
            assert_eq!(found.number("written"), event.written.map(usize::from));
            let line = event.step.map(|step| steps[step].number("line").unwrap());
            assert_eq!(found.number("line"), line);
        }
        let relation = |relation| match relation {
            Relation::ProgramOrder => "po",
            Relation::ReadsFrom => "rf",
            Relation::ModificationOrder => "mo",
            Relation::FromRead => "fr",
        };
        let expected = explanation.cycle().iter().map(|edge| (edge.from, edge.to, relation(edge.relation)));
        let edges =
            data.get("cycle").items().iter().map(|edge| {
                (edge.number("from").unwrap(), edge.number("to").unwrap(), edge.text_of("relation"))
            });
        assert!(edges.eq(expected), "{}", reported.name);
    }
}

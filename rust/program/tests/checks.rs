//! The mode `check`: what it prints, its statuses, and that its objects fit docs/check.schema.json and have together
//! all that it names.
#![cfg(feature = "capture")]
#[path = "common/captures.rs"]
mod captures;
#[path = "../../capture/tests/common/mod.rs"]
mod common;
#[path = "common/json.rs"]
mod json;
#[path = "../../capture/tests/common/made.rs"]
mod made;
#[path = "common/mod.rs"]
mod program;

use captures::{Folder, SMALL, SMALL_KEYS, pcap};
use common::Kept;
use json::{Json, Schema};
use made::{Client, Made, Server, Short};
use program::run;
use std::collections::BTreeSet;
use std::fs;

const SCHEMA: &str = include_str!("../../../docs/check.schema.json");

/// The name of a finding in a trace.
const FINDING: &str = "quic_wire:rule_broken";

// A connection both of whose sides send a short Initial packet (RFC 9000, section 14.1), the client twice a
// HANDSHAKE_DONE (section 19.20), and the server no original_destination_connection_id (section 7.3), and a
// PATH_CHALLENGE to an address that isn't validated.
fn broken() -> (Made, Vec<Kept>) {
    let mut made = Made::new(1);
    let mut all = made.handshake();
    all.extend([made.send(Client, Short, &[1, 0x1e]), made.send(Client, Short, &[0x1e])]);
    made.addresses[0] = ([192, 0, 2, 1], 5).into();
    all.push(made.send(Server, Short, b"\x1a12345678"));
    (made, all)
}

fn files(folder: &Folder) -> (String, String) {
    let (made, all) = broken();
    (folder.write("broken.pcap", pcap(&all)), folder.write("keys", made.key_log()))
}

#[test]
fn lines() {
    let folder = Folder::new("check-lines");
    let (file, keys) = files(&folder);
    let (text, said, status) = run(&["check", "--only", "frame-sender", "--keylog", &keys, &file], b"");
    let begin = format!("{file}:4: connection 0 client 1-RTT 0, byte ");
    assert!(text.starts_with(&begin) && text.contains(", byte 1 of the payload, 2 times up to record 5\n"), "{text}");
    let rule =
        "    MUST frame-sender: HANDSHAKE_DONE from a client; expected: one from a server (RFC 9000, section 19.20)\n";
    let end =
        format!("{file}: 6 records, 1 connection on the path, 7 packets opened, 0 not opened, 1 rule: 1 MUST broken\n");
    assert!(text.contains(rule) && text.ends_with(&end), "{text}");
    assert_eq!((&said[..], status), ("", 1));
}

#[test]
fn a_lawful_capture() {
    let (text, said, status) = run(&["check", "--should", "--keylog", SMALL_KEYS, SMALL], b"");
    assert_eq!((&said[..], status), ("", 0), "{text}");
    assert!(text.ends_with(": nothing found\n"), "{text}");
    // Without a key log.
    let (text, said, status) = run(&["check", SMALL], b"");
    assert_eq!((&said[..], status), ("", 0), "{text}");
}

#[test]
fn statuses() {
    let folder = Folder::new("check-statuses");
    let (file, keys) = files(&folder);
    let status = |arguments: &[&str]| run(&[&["check"], arguments].concat(), b"").2;
    assert_eq!(status(&["--keylog", &keys, &file]), 1);
    assert_eq!(status(&["--only", "path-size", "--keylog", &keys, &file]), 0);
    assert_eq!(status(&["--keylog", &keys, &file, "no such file"]), 3);
    assert_eq!(status(&["--keylog", "no such file", SMALL]), 3);
    assert_eq!(status(&["--lost", SMALL]), 2);
    assert_eq!(status(&["--qlog", &file, SMALL]), 3);
    assert_eq!(status(&["--at", "home", SMALL]), 2);
    assert_eq!(status(&["--json", "--sarif", SMALL]), 2);
    assert_eq!((status(&["--opened", "101", SMALL]), status(&["--opened", "5%", SMALL])), (2, 2));
    // That it isn't an option of this mode is said before what is wrong with its value.
    let (_, said, status) = run(&["check", "--number", "x", SMALL], b"");
    assert_eq!((said.lines().next(), status), (Some("quic-wire: --number is an option of capture, not of check"), 2));
    let (_, said, status) = run(&["check", "--only", "frame-sendr", SMALL], b"");
    let wanted = "quic-wire: --only: unknown rule \"frame-sendr\"; did you mean frame-sender?; --rules lists them\n";
    assert_eq!((&said[..], status), (wanted, 2));
}

#[test]
fn what_is_allowed_is_not_counted() {
    let folder = Folder::new("check-allowed");
    let (file, keys) = files(&folder);
    let call = |allowed: &[&str]| run(&[&["check", "--keylog", &keys][..], allowed, &[&file]].concat(), b"");
    let one = ["--allow", "frame-sender=issue 12"];
    let (text, _, status) = call(&one);
    assert!(text.contains(" (RFC 9000, section 19.20), allowed: issue 12\n"), "{text}");
    assert!(text.ends_with(": 3 MUST broken, 1 allowed\n") && status == 1, "{text}");
    let others = ["--allow=initial-size=a = b", "--allow", "original-destination-id=none is sent"];
    let (text, _, status) = call(&[&one[..], &others].concat());
    assert!(text.ends_with(": 4 allowed\n") && text.contains(", allowed: a = b\n") && status == 0, "{text}");

    let wrong = |text: &str| call(&["--allow", text]);
    let wanted = "quic-wire: --allow: expected RULE=REASON, not \"frame-sender\"\n";
    assert!(wrong("frame-sender").1.starts_with(wanted), "{}", wrong("frame-sender").1);
    let wanted = "quic-wire: --allow: unknown rule \"frame-sendr\"; did you mean frame-sender?; --rules lists them\n";
    assert_eq!((&wrong("frame-sendr=why").1[..], wrong("frame-sendr=why").2), (wanted, 2));
    assert_eq!((wrong("frame-sender=").2, wrong("=why").2), (2, 2));
    let (_, said, status) = call(&["--allow", "frame-sender=why", "--allow", "frame-sender=because"]);
    assert_eq!((said.lines().next(), status), (Some("quic-wire: --allow: \"frame-sender\" is there twice"), 2));
}

// With the key log of another connection, and a line that is none, only Initial packets are opened: 2 of 7.
#[test]
fn why_packets_are_not_opened() {
    let folder = Folder::new("check-shut");
    let (file, _) = files(&folder);
    let other = folder.write("other", Made::new(2).key_log() + "not a line\n");
    let (text, said, status) = run(&["check", "--keylog", &other, &file], b"");
    let lines = format!(
        "{file}: 5 packets not opened: the key log has no secret for it\n{file}: 1 line of key logs skipped\n{file}: 6 \
         records, 1 connection on the path, 2 packets opened, 5 not opened, "
    );
    assert!(text.contains(&lines), "{text}");
    assert_eq!((&said[..], status), ("", 1));
    let all = objects(&["--keylog", &other, &file]);
    let end = all.last().unwrap();
    assert_eq!((number(end, "opened"), number(end, "unopened"), number(end, "skipped_lines")), (2, 5, 1));
    let [reason] = end.at("unopened_reasons").items() else { panic!("{end:?}") };
    assert_eq!((reason.at("reason").text(), number(reason, "count")), ("the key log has no secret for it", 5));
    let log = sarif(&["--keylog", &other, &file]);
    is_sarif(&log);
    for what in ["5 packets not opened: the key log has no secret for it", "1 line of key logs skipped"] {
        assert!(notes(&log).contains(&what), "{what}: {:?}", notes(&log));
    }
}

// With the link type of 802.11, which isn't read, no record has a datagram.
#[test]
fn records_without_a_datagram_are_counted() {
    let folder = Folder::new("check-links");
    let (file, _) = files(&folder);
    let mut bytes = fs::read(&file).unwrap();
    bytes[20] = 105;
    let other = folder.write("other", bytes);
    let (text, _, status) = run(&["check", &other], b"");
    assert_eq!(text.lines().next(), Some(&format!("{other}: 6 records without a UDP datagram")[..]), "{text}");
    assert_eq!(status, 0);
    assert!(notes(&sarif(&[&other])).contains(&"6 records without a UDP datagram"));
}

// Without a key log 2 of 16 packets are opened, 12.5 %.
#[test]
fn a_share_of_the_packets_must_be_opened() {
    let folder = Folder::new("check-opened");
    let none = folder.write("none.pcap", pcap(&[]));
    let status = |arguments: &[&str]| run(&[&["check", "--opened"], arguments].concat(), b"").2;
    assert_eq!(status(&["100", "--keylog", SMALL_KEYS, SMALL]), 0);
    assert_eq!((status(&["12", SMALL]), status(&["13", SMALL])), (0, 1));
    assert_eq!((status(&["0", &none]), status(&["1", &none])), (0, 1), "no packet");
    assert_eq!(status(&["13", SMALL, "no such file"]), 3);
    let (text, ..) = run(&["check", "--opened", "13", SMALL], b"");
    assert!(text.contains(&format!("{SMALL}: 2 of 16 packets opened, fewer than 13 %\n")), "{text}");
    let enough = |most: &str| objects(&["--opened", most, SMALL]).last().unwrap().get("enough_opened").cloned();
    assert_eq!((enough("12"), enough("13")), (Some(Json::Flag(true)), Some(Json::Flag(false))));
    let log = sarif(&["--opened", "13", SMALL]);
    assert!(notes(&log).contains(&"2 of 16 packets opened, fewer than 13 %"), "{:?}", notes(&log));
}

// Recorded ones with a Retry, a stateless reset and a version negotiation, which have no protection.
#[test]
fn packets_that_cannot_be_opened_do_not_count() {
    for name in ["quinn-retry", "aioquic-nginx-reset", "ngtcp2-negotiation"] {
        let [file, keys] = ["pcap", "keys"].map(|kind| format!("../../vectors/captures/{name}.{kind}"));
        let (text, _, status) = run(&["check", "--opened", "100", "--keylog", &keys, &file], b"");
        assert!(text.contains(" packets opened, 0 not opened, "), "{name}: {text}");
        assert_eq!(status, 0, "{name}: {text}");
    }
}

// What wasn't read isn't clean: the summary is left out, or says what is lacking, in each form.
#[test]
fn files_that_cannot_be_read() {
    let folder = Folder::new("check-unread");
    let small = fs::read(SMALL).unwrap();
    let (none, cut) = (folder.path("none"), folder.write("cut.pcap", &small[..small.len() - 5]));
    let rows = [
        (folder.write("text", "this is text"), "not read: the file is neither pcap nor pcapng", false),
        (folder.write("empty", ""), "not read: the file is empty", false),
        (folder.path(""), "not read: Is a directory", false),
        (none, "not read: No such file or directory", false),
        (cut, "not read to its end: cut off after record 12", true),
    ];
    let mut schema = Schema::read(SCHEMA);
    for (file, what, is_cut) in rows {
        let call = |form: &[&str]| run(&[&["check"], form, &["--opened", "1", &file]].concat(), b"");
        let (text, said, status) = call(&[]);
        let (_, reason) = what.split_once(": ").unwrap();
        assert!(text.lines().any(|line| line.starts_with(&format!("{file}: {what}"))), "{what}: {text}");
        assert_eq!((text.contains("nothing found"), text.contains("fewer than"), status), (is_cut, false, 3), "{text}");
        assert!(said.starts_with(&format!("quic-wire: {file}: {reason}")), "{what}: {said}");
        let (text, ..) = call(&["--json"]);
        let end = Json::read(text.lines().last().unwrap());
        schema.check(&end);
        assert!(end.at("unread").text().starts_with(reason), "{what}: {end:?}");
        assert_eq!(end.at("cut_off"), &Json::Flag(is_cut), "{what}");
        let log = Json::read(&call(&["--sarif"]).0);
        is_sarif(&log);
        assert!(notes(&log).iter().any(|note| note.starts_with(what)), "{what}: {:?}", notes(&log));
    }
    let log = Json::read(&run(&["check", "--sarif", "--keylog", &folder.path("none"), SMALL], b"").0);
    assert!(notes(&log).iter().any(|note| note.starts_with("key log not read: ")), "{:?}", notes(&log));
}

#[test]
fn where_it_was_captured() {
    let end = |more: &[&str]| run(&[&["check", "--keylog", SMALL_KEYS][..], more, &[SMALL]].concat(), b"").0;
    assert!(end(&[]).contains(": 13 records, 1 connection on the path, "), "{}", end(&[]));
    assert!(end(&["--at", "server"]).contains(": 13 records, 1 connection at the server, "), "{}", end(&[]));
}

#[test]
fn rules() {
    let (text, said, status) = run(&["check", "--rules", "--only", "final-size"], b"");
    let wanted = "final-size MUST (RFC 9000, section 4.5)\n    \
                  The final size of a stream doesn't change, and no data are beyond it.\n    \
                  silent if limits of an earlier connection apply to 0-RTT packets\n";
    assert_eq!((&text[..], &said[..], status), (wanted, "", 0));
    let all = run(&["check", "--rules"], b"").0;
    assert!(all.contains("payload-size SHOULD (RFC 9000, section 18.2)\n"), "{all}");
}

fn objects(arguments: &[&str]) -> Vec<Json> {
    let (text, said, _) = run(&[&["check", "--json"], arguments].concat(), b"");
    assert_eq!(said, "", "{arguments:?}");
    text.lines().map(Json::read).collect()
}

#[test]
fn all_objects_fit_the_schema_and_have_what_it_names() {
    let folder = Folder::new("check-schema");
    let (file, keys) = files(&folder);
    let mut schema = Schema::read(SCHEMA);
    let allowed = ["--allow", "frame-sender=why", "--keylog", &keys, &file];
    let calls = [&["--rules"][..], &["--keylog", &keys, &file, SMALL], &["--should", "--keylog", SMALL_KEYS, SMALL]];
    for call in calls.into_iter().chain([&allowed[..], &["--opened", "50", SMALL]]) {
        objects(call).iter().for_each(|object| schema.check(object));
    }
    schema.check(&Json::read(&run(&["check", "--json", "no such file"], b"").0));
    let (all, seen) = (schema.members(), &schema.seen);
    assert_eq!(all.difference(seen).collect::<Vec<_>>(), Vec::<&String>::new());

    // The schema's needs are those of the table, and those that all rules of the whole history have.
    let rules = objects(&["--rules"]);
    let needs = rules.iter().flat_map(|rule| rule.at("needs").items()).map(|need| need.at("need").text());
    let needs: BTreeSet<_> = needs.chain(["room"]).collect();
    let schema = Json::read(SCHEMA);
    assert_eq!(schema.at("$defs.need.enum").items().iter().map(Json::text).collect::<BTreeSet<_>>(), needs);
}

#[test]
fn a_finding_says_where() {
    let folder = Folder::new("check-finding");
    let (file, keys) = files(&folder);
    let found = objects(&["--only", "frame-sender", "--keylog", &keys, &file]);
    let finding = &found[0];
    let text = |name: &str| finding.at(name).text();
    assert_eq!((text("kind"), text("rule"), text("section")), ("finding", "frame-sender", "19.20"));
    assert_eq!((text("sender"), text("type"), text("level")), ("client", "1-RTT", "MUST"));
    let number = |name: &str| number(finding, name);
    assert_eq!((number("record"), number("last_record"), number("count")), (4, 5, 2));
    // A short header of a byte, an id of 6 and a packet number of 1 byte, then PING.
    assert_eq!((number("offset_in_datagram"), number("offset_in_payload")), (9, 1));
}

// The text of a trace, and its findings' events: the last ones.
fn trace(path: &str) -> (String, Vec<Json>) {
    let text = fs::read_to_string(path).unwrap();
    let events = text.strip_prefix('\x1e').unwrap().split("\n\x1e").skip(1).map(Json::read);
    let findings = events.skip_while(|event| event.at("name").text() != FINDING);
    let findings: Vec<_> = findings.collect();
    assert!(findings.iter().all(|event| event.at("name").text() == FINDING), "{text}");
    (text, findings)
}

// A trace is that of `capture`, and behind it a finding has its members of `--json`, except those of the line.
#[test]
fn findings_in_traces() {
    let folder = Folder::new("check-traces");
    let (file, keys) = files(&folder);
    let allowed = ["--allow", "frame-sender=why", "--keylog", &keys, &file];
    let (checked, shown) = (folder.path("new/checked"), folder.path("shown"));
    let (text, said, status) = run(&[&["check", "--qlog", &checked], &allowed[..]].concat(), b"");
    assert_eq!((&text, &said[..], status), (&run(&[&["check"], &allowed[..]].concat(), b"").0, "", 1));
    run(&["capture", "--qlog", &shown, "--keylog", &keys, &file], b"");
    let (text, findings) = trace(&format!("{checked}/broken.pcap.0.sqlog"));
    assert!(text.starts_with(&fs::read_to_string(format!("{shown}/broken.pcap.0.sqlog")).unwrap()), "{text}");
    let all = objects(&allowed);
    let objects: Vec<_> = all.iter().filter(|object| object.at("kind").text() == "finding").collect();
    assert!(objects.len() == findings.len() && objects.len() == 4, "{findings:?}");
    let mut schema = Schema::read(SCHEMA);
    for (finding, object) in findings.iter().zip(objects) {
        let of_line = ["kind", "time", "connection"];
        let members = object.members().iter().filter(|(name, _)| !of_line.contains(&&name[..]));
        let line = Json::Object(members.cloned().collect());
        assert_eq!(finding.at("data"), &line);
        schema.check(object);
        // A connection's trace begins with the capture.
        let Json::Number(millis) = finding.at("time") else { panic!("{finding:?}") };
        let seconds = object.at("time");
        assert_eq!(format!("{:.9}", millis.parse::<f64>().unwrap() / 1000.0), digits(seconds));
    }
}

fn digits(number: &Json) -> String {
    let Json::Number(digits) = number else { panic!("{number:?}") };
    format!("{:.9}", digits.parse::<f64>().unwrap())
}

// The first connection is forgotten while the second one goes on.
#[test]
fn traces_of_connections_that_are_forgotten() {
    let folder = Folder::new("check-forgotten");
    let ((mut one, mut all), mut other) = (broken(), Made::new(2));
    all.push(one.send(Client, Short, &[0x1d, 0, 0]));
    other.time = one.time + 20_000_000_000;
    all.extend(other.handshake());
    all.extend((0..2200).map(|_| other.send(Client, Short, &[1])));
    let (file, keys) = (folder.write("two.pcap", pcap(&all)), folder.write("keys", one.key_log() + &other.key_log()));
    let qlog = folder.path("qlog");
    run(&["check", "--qlog", &qlog, "--keylog", &keys, &file], b"");
    let rules = |number: usize| {
        let findings = trace(&format!("{qlog}/two.pcap.{number}.sqlog")).1;
        findings.iter().map(|event| event.at("data.rule").text().to_string()).collect::<Vec<_>>()
    };
    assert_eq!(rules(0).iter().filter(|rule| *rule == "frame-sender").count(), 1);
    assert_eq!(rules(1).iter().filter(|rule| *rule == "frame-sender").count(), 0);
    assert!(rules(0).len() >= 4 && !rules(1).is_empty(), "{:?} {:?}", rules(0), rules(1));
}

fn sarif(arguments: &[&str]) -> Json {
    let (text, said, _) = run(&[&["check", "--sarif"], arguments].concat(), b"");
    assert_eq!((said.as_str(), text.lines().count()), ("", 1), "{arguments:?}");
    Json::read(&text)
}

fn is_one_of(value: &Json, words: &[&str]) -> bool {
    matches!(value, Json::Text(text) if words.contains(&&text[..]))
}

// That an object has what SARIF 2.1.0 requires of a log (its section 3.13 and those of what is in it).
fn is_sarif(log: &Json) {
    assert_eq!((log.at("version").text(), log.at("runs").items().len()), ("2.1.0", 1));
    assert!(!log.at("runs.0.tool.driver.name").text().is_empty());
    let rules: Vec<_> = log.at("runs.0.tool.driver.rules").items().iter().map(|rule| rule.at("id").text()).collect();
    assert_eq!(rules.iter().collect::<BTreeSet<_>>().len(), rules.len(), "an id is there twice");
    for rule in log.at("runs.0.tool.driver.rules").items() {
        assert!(rule.at("shortDescription.text").text().ends_with('.'), "{rule:?}");
        assert!(is_one_of(rule.at("defaultConfiguration.level"), &["error", "warning"]), "{rule:?}");
    }
    let artifacts = log.at("runs.0.artifacts").items();
    for result in log.at("runs.0.results").items() {
        assert!(!result.at("message.text").text().is_empty(), "{result:?}");
        assert!(is_one_of(result.at("level"), &["error", "warning"]), "{result:?}");
        let index = number(result, "ruleIndex") as usize;
        assert_eq!(rules.get(index), Some(&result.at("ruleId").text()), "{result:?}");
        let place = result.at("locations.0.physicalLocation");
        let uri = place.at("artifactLocation.uri");
        assert!(artifacts.iter().any(|artifact| artifact.at("location.uri") == uri), "{result:?}");
        assert!(number(place, "region.startLine") > 0, "{result:?}");
        for suppression in result.get("suppressions").map_or(&[][..], Json::items) {
            assert!(is_one_of(suppression.at("kind"), &["inSource", "external"]), "{suppression:?}");
        }
    }
    let [invocation] = log.at("runs.0.invocations").items() else { panic!("no invocation") };
    assert!(matches!(invocation.at("executionSuccessful"), Json::Flag(_)));
    for notification in invocation.at("toolExecutionNotifications").items() {
        let rule = notification.get("associatedRule").map(|rule| rule.at("id").text());
        assert!(rule.is_none_or(|rule| rules.contains(&rule)), "{notification:?}");
        assert!(is_one_of(notification.at("level"), &["error", "warning", "note"]), "{notification:?}");
        assert!(!notification.at("message.text").text().is_empty(), "{notification:?}");
    }
}

// What an object says of what wasn't checked.
fn notes(log: &Json) -> Vec<&str> {
    let notes = log.at("runs.0.invocations.0.toolExecutionNotifications").items();
    notes.iter().map(|note| note.at("message.text").text()).collect()
}

fn number(object: &Json, path: &str) -> u64 {
    match object.at(path) {
        Json::Number(digits) => digits.parse().unwrap(),
        other => panic!("{path}: {other:?}"),
    }
}

#[test]
fn an_object_of_sarif() {
    let folder = Folder::new("check-sarif");
    let (file, keys) = files(&folder);
    let log = sarif(&["--should", "--allow", "frame-sender=issue 12", "--keylog", &keys, &file, SMALL]);
    is_sarif(&log);
    assert_eq!(log.at("runs.0.artifacts").items().len(), 2);
    let [short, _, _, sender] = log.at("runs.0.results").items() else { panic!("{log:?}") };
    assert_eq!((short.at("ruleId").text(), short.at("level").text()), ("initial-size", "error"));
    assert_eq!((short.get("suppressions"), number(short, "locations.0.physicalLocation.region.startLine")), (None, 1));
    assert_eq!((sender.at("ruleId").text(), number(sender, "occurrenceCount")), ("frame-sender", 2));
    let suppression = sender.at("suppressions.0");
    assert_eq!((suppression.at("kind").text(), suppression.at("justification").text()), ("external", "issue 12"));
    let at = "locations.0.logicalLocations.0.fullyQualifiedName";
    assert_eq!(sender.at(at).text(), "connection 0/client/1-RTT 0");
    let silent = log.at("runs.0.invocations.0.toolExecutionNotifications").items();
    let path_size = silent.iter().find(|one| one.get("associatedRule") == Some(&Json::read(r#"{"id":"path-size"}"#)));
    let once = path_size.unwrap().at("message.text").text();
    assert!(once.starts_with("not checked 1 time: "), "{once}");

    let table = sarif(&["--rules"]);
    is_sarif(&table);
    assert_eq!(table.at("runs.0.tool.driver.rules").items().len(), objects(&["--rules"]).len());
    let text = run(&["check", "--sarif", SMALL, "no such file"], b"").0;
    assert_eq!(Json::read(&text).at("runs.0.invocations.0.executionSuccessful"), &Json::Flag(false));
}

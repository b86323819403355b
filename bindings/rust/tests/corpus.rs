//! The traces of the conformance corpus: each report is that of the program.
use qaudit::{
    Allowance, Auditor, Cause, Error, Header, Metrics, Packet, Progress, Role, Space, TimerKind,
    Verdict,
};
use std::fs;
use std::path::PathBuf;

fn traces() -> Vec<PathBuf> {
    let folder = PathBuf::from(env!("CARGO_MANIFEST_DIR")).join("../../conformance/traces");
    let files = fs::read_dir(folder)
        .unwrap()
        .map(|file| file.unwrap().path());
    files
        .filter(|path| path.extension().is_some_and(|end| end == "trace"))
        .collect()
}

#[test]
fn each_report_is_that_of_the_corpus() {
    assert!(!traces().is_empty());
    for path in traces() {
        let bytes = fs::read(&path).unwrap();
        let wanted = fs::read_to_string(path.with_extension("report")).unwrap();
        for piece in [1, 7, 4096] {
            let mut auditor = Auditor::without_header().unwrap();
            for part in bytes.chunks(piece) {
                if auditor.feed(part).unwrap() != Progress::Open {
                    break;
                }
            }
            auditor.finish().unwrap();
            assert_eq!(auditor.report(), wanted, "{} by {piece}", path.display());
        }
    }
}

#[test]
fn each_reason_is_that_of_the_corpus() {
    let mut count = 0;
    for path in traces() {
        let Ok(why) = fs::read_to_string(path.with_extension("why")) else {
            continue;
        };
        let wanted = why.replacen(path.file_name().unwrap().to_str().unwrap(), "-", 1);
        let mut auditor = Auditor::recorded_without_header().unwrap();
        auditor.feed(&fs::read(&path).unwrap()).unwrap();
        auditor.finish().unwrap();
        assert_eq!(auditor.why(), wanted, "{}", path.display());
        assert_eq!(auditor.around(0), wanted);
        assert!(auditor.around(3).starts_with(&wanted));
        count += 1;
    }
    assert!(count > 0);
}

#[test]
fn an_event_is_its_line() {
    let mut auditor = Auditor::recorded(&Header::new(Role::Server, 1200)).unwrap();
    for number in 0..11 {
        auditor
            .sent(&Packet::new(number, Space::App, number, 1200))
            .unwrap();
    }
    let why = auditor.why();
    assert!(
        why.starts_with("-:12: refused V7 past-window: packet 10 of app"),
        "{why}"
    );
    let line = r#"  12 | {"eliciting":true,"event":"sent","in_flight":true,"leave":"window","number":10,"size":1200,"space":"app","time":10}"#;
    assert_eq!(why.lines().nth(1), Some(line));
    assert_eq!(auditor.around(2).matches("\n  line ").count(), 2);
}

#[test]
fn what_was_allowed_is_told() {
    let mut header = Header::new(Role::Server, 1200);
    header.report_slack_us = 10;
    let mut auditor = Auditor::recorded(&header).unwrap();
    for (time, rtt) in [(0, 333_007), (1, 333_002)] {
        let metrics = Metrics {
            smoothed_rtt: Some(rtt),
            ..Metrics::default()
        };
        auditor.metrics(time, &metrics).unwrap();
    }
    let rule = Cause {
        number: 16,
        name: "metric".to_owned(),
        subject: Some("smoothed_rtt".to_owned()),
    };
    let wanted = Allowance {
        rule,
        key: "report_slack_us".to_owned(),
        count: 2,
        first: 2,
        last: 3,
        greatest: 7,
        limit: Some(10),
    };
    assert_eq!(auditor.allowed(), [wanted]);
    let mut other = Auditor::new(&header).unwrap();
    assert_eq!(
        (other.why(), other.around(3), other.allowed()),
        (String::new(), String::new(), vec![])
    );
}

#[test]
fn events_of_each_kind_are_taken() {
    let mut auditor = Auditor::new(&Header::new(Role::Client, 1200)).unwrap();
    auditor
        .sent(&Packet::new(0, Space::Initial, 0, 1200))
        .unwrap();
    auditor
        .ack(100_000, Space::Initial, &[0..=0], 0, false)
        .unwrap();
    auditor.keys(100_000).unwrap();
    auditor.discard(100_001, Space::Initial).unwrap();
    auditor.confirmed(100_002).unwrap();
    auditor.discard(100_003, Space::Handshake).unwrap();
    let metrics = Metrics {
        latest_rtt: Some(100_000),
        ..Metrics::default()
    };
    assert_eq!(auditor.metrics(100_004, &metrics), Ok(Progress::Open));
    assert!(matches!(auditor.finish(), Ok(Verdict::Accepted { totals }) if totals.events == 7));
}

#[test]
fn the_first_departure_is_told() {
    let mut auditor = Auditor::new(&Header::new(Role::Server, 1200)).unwrap();
    assert_eq!(
        auditor.timer(0, TimerKind::Pto, Space::App),
        Ok(Progress::Fixed)
    );
    match auditor.verdict() {
        Some(Verdict::Refused { line: 2, rule, .. }) => {
            assert_eq!((rule.number, rule.name.as_str()), (11, "timer-not-set"))
        }
        other => panic!("{other:?}"),
    }
}

#[test]
fn what_is_out_of_range_is_not_taken() {
    let mut auditor = Auditor::new(&Header::new(Role::Server, 1200)).unwrap();
    assert_eq!(auditor.lost(0, Space::App, &[]), Err(Error::OutOfRange));
    assert_eq!(auditor.discard(0, Space::App), Err(Error::OutOfRange));
    assert!(Auditor::new(&Header::new(Role::Server, 1199)).is_err());
    assert_eq!(auditor.verdict(), None);
}

#[test]
fn an_auditor_goes_from_thread_to_thread() {
    let mut auditor = Auditor::new(&Header::new(Role::Server, 1200)).unwrap();
    for time in 0..4 {
        auditor = std::thread::spawn(move || {
            auditor.keys(time).unwrap();
            auditor
        })
        .join()
        .unwrap();
    }
    assert!(matches!(auditor.finish(), Ok(Verdict::Accepted { totals }) if totals.events == 4));
}

#[test]
fn threads_that_share_an_auditor_take_a_lock() {
    let auditor = std::sync::Mutex::new(Auditor::new(&Header::new(Role::Server, 1200)).unwrap());
    std::thread::scope(|scope| {
        for _ in 0..4 {
            scope.spawn(|| {
                for _ in 0..1000 {
                    auditor
                        .lock()
                        .unwrap()
                        .metrics(0, &Metrics::default())
                        .unwrap();
                }
            });
        }
    });
    let verdict = auditor.into_inner().unwrap().finish();
    assert!(matches!(verdict, Ok(Verdict::Accepted { totals }) if totals.events == 4000));
}

//! Each call of the crate on the library that was built. What scripts give is worked out by hand from xv6's shell.
use std::thread;
use xvsh::{Error, Fault, File, GradeError, Order, Task};

const SCRIPT: &str = "echo hello | tee g; cat f g | wc\n";

fn task() -> Task<'static> {
    Task::new(SCRIPT).file("f", "a\nb\n")
}

fn holds(json: &[u8], text: &str) -> bool {
    json.windows(text.len()).any(|it| it == text.as_bytes()) && json.ends_with(b"}\n")
}

#[test]
fn a_script_by_its_meaning() {
    let told = task().plain().unwrap();
    assert_eq!(told.out(), b"hello\n3 3 10 \n");
    assert!(told.is_settled());
    let files = [File { name: b"f", bytes: b"a\nb\n", is_soft: false }, File { name: b"g", bytes: b"hello\n", is_soft: false }];
    assert_eq!(told.files(), files);
    assert_eq!(Task::new("wc").input("x y\n").plain().unwrap().out(), b"1 2 4 \n");
    let xv6 = Task::new("echo b >> f").file("f", "a\nc\n");
    assert_eq!(xv6.plain().unwrap().files()[0].bytes, b"b\nc\n");
    assert_eq!(xv6.appending().plain().unwrap().files()[0].bytes, b"a\nc\nb\n");
    assert!(format!("{told:?}").starts_with("Plain { out: \"hello\\n"));
}

#[test]
fn runs_and_their_schedules() {
    let run = task().run(100_000, Order::Kernel).unwrap();
    assert_eq!((run.out(), run.diag(), run.full()), (b"hello\n3 3 10 \n".as_slice(), b"".as_slice(), None));
    assert!(run.events().starts_with(b"D 0 "));
    let again = task().replay(run.events()).unwrap();
    assert_eq!((again.out(), again.events()), (run.out(), run.events()));
    for order in [Order::Drawn(7), Order::Lowest, Order::Highest, Order::Starving(3), Order::Eager] {
        assert_eq!(task().run(100_000, order).unwrap().out(), run.out());
    }
    let lost = Task::new("cat no_such").run(100_000, Order::Kernel).unwrap();
    assert_eq!(lost.diag(), b"cat: cannot open no_such\n");
    let traced = task().trace(100_000, Order::Kernel).unwrap();
    assert_eq!(traced.out(), run.out());
    let drawn = task().draw(100_000, Order::Kernel).unwrap();
    assert_eq!(drawn.out(), run.out());
    assert!(drawn.events().to_ascii_lowercase().starts_with(b"<!doctype html>"));
    let both = task().draw_two(run.events(), run.events()).unwrap();
    assert_eq!(both.out(), run.out());
    assert!(both.events().to_ascii_lowercase().starts_with(b"<!doctype html>") && both.events() != drawn.events());
    let picture = task().draw_svg(100_000, Order::Kernel).unwrap();
    assert!(picture.out() == run.out() && picture.events().starts_with(b"<svg ") && picture.events().ends_with(b"</svg>\n"));
    let pictures = task().draw_two_svg(run.events(), run.events()).unwrap();
    assert!(pictures.out() == run.out() && pictures.events().starts_with(b"<svg ") && pictures.events() != picture.events());
    assert!(traced.events().starts_with(b"{") && holds(traced.events(), "\"kind\":\"dispatch\""));
}

#[test]
fn what_is_told_of_a_script() {
    let racy = Task::new("echo a &; echo b\n");
    assert!(holds(racy.check(false).unwrap().json(), "{\"kind\":\"background\",\"line\":1}") && !racy.check(false).unwrap().is_fine());
    assert!(task().check(true).unwrap().is_fine());
    assert!(Task::new(")").check(false).unwrap().is_fine() && !Task::new(")").check(true).unwrap().is_fine());
    assert!(holds(task().check_turns(true).unwrap().json(), ",\"turns\":") && task().check_turns(true).unwrap().is_fine());
    assert!(holds(Task::new("echo a | cat").check_room(false).unwrap().json(), "\"processes\":{\"need\":5,\"most\":64}"));
    assert!(holds(Task::new("ls").explain().unwrap().json(), "\"NoListing\"") && task().explain().unwrap().is_fine());
    let whys = Task::new("cat f | tee f; cat g").file("f", "a").explain_why().unwrap();
    assert!(holds(whys.json(), "\"missing\":[{\"line\":1,\"name\":\"g\"}]") && holds(whys.json(), "\"clash\":\"PipeSides\"") && !whys.is_fine());
    let orders = racy.explore(100_000, false).unwrap();
    assert!(holds(orders.json(), "\"ba\\n\\n\"") && orders.is_whole() && !orders.is_fine());
    assert!(!racy.explore(1, false).unwrap().is_whole());
    let look = task().look(b"D 0 1\nT 0 1\n").unwrap();
    assert!(holds(look.json(), "\"stands\":\"runnable\"") && !look.is_fine());
    let whole = task().run(100_000, Order::Kernel).unwrap();
    assert!(task().look(whole.events()).unwrap().is_fine());
}

// The exercise: print what is read.
const SUITE: &str = "[[test]]\nname = \"copies\"\ninput_file = \"in\"\noutput = \"x\\n\"\n";

#[test]
fn a_suite_that_grades() {
    let told = Task::new("cat").file("in", "x\n").grade(SUITE, 0, false).unwrap();
    assert!(told.is_fine() && holds(told.json(), "\"script\":\"-\",\"points\":1,\"of\":1,"));
    let wrong = Task::new("cat | wc").file("in", "x\n").grade(SUITE, 1000, false).unwrap();
    assert!(!wrong.is_fine() && holds(wrong.json(), "\"verdict\":\"wrong\""));
    let refused = |fault, place, said: &str, task: &Task<'_>, suite: &str, is_alone| {
        let error = GradeError { error: Error { fault, place }, said: said.into() };
        assert_eq!(task.grade(suite, 0, is_alone).map(drop), Err(error));
    };
    let task = Task::new("cat");
    refused(Fault::BadSuite, 3, "cannot read in", &task, SUITE, false);
    refused(Fault::BadSuite, 1, "the test has no script of its own, and none is given", &task.clone().file("in", ""), SUITE, true);
    refused(Fault::UnusedScript, 0, "", &task.clone().file("in", ""), &format!("{SUITE}script = \"cat\"\n"), false);
    refused(Fault::EveryWay, 1, "", &task.clone().file("in", ""), &format!("{SUITE}every_way = true\n"), false);
    refused(Fault::SuiteTooLong, 0, "", &task, &"#".repeat(1_048_577), false);
    let alone = task.file("in", "x\n").grade(&format!("{SUITE}script = \"cat\"\n"), 0, true).unwrap();
    assert!(alone.is_fine() && holds(alone.json(), "\"script\":null"));
}

#[test]
fn an_exploration_that_is_given_up() {
    let wide = Task::new("(echo a; echo b)&; (echo c; echo d)&; (echo e; echo f)\n");
    let mut asked = 0;
    let told = wide.explore_watched(100_000, false, |requests| {
        asked += 1;
        assert_eq!(requests, asked * 1024);
        asked < 5
    });
    assert_eq!((told.map(drop), asked), (Err(Error { fault: Fault::GivenUp, place: 0 }), 5));
    let whole = Task::new("echo a &; echo b").explore_watched(100_000, false, |_| true).unwrap();
    assert_eq!(whole.json(), Task::new("echo a &; echo b").explore(100_000, false).unwrap().json());
    let panicked = std::panic::catch_unwind(|| wide.explore_watched(100_000, false, |_| panic!("enough")).map(drop));
    assert_eq!(panicked.unwrap_err().downcast_ref::<&str>(), Some(&"enough"));
}

#[test]
fn faults() {
    let refused = |fault, place, result: Result<(), Error>| assert_eq!(result, Err(Error { fault, place }));
    refused(Fault::LineTooLong, 2, Task::new(&format!("echo\necho {}", "a".repeat(600))).plain().map(drop));
    refused(Fault::ByteZero, 1, Task::new(b"echo \0").explain().map(drop));
    refused(Fault::BadName, 1, Task::new("cat").file("a/b", "").explain_why().map(drop));
    refused(Fault::TakenName, 2, Task::new("cat").file("a", "").file("a", "").check_room(false).map(drop));
    refused(Fault::Memory, 0, Task::new("cat f").file("f", &"x".repeat(1000)).budget(10).plain().map(drop));
    refused(Fault::Spent, 0, task().run(5, Order::Kernel).map(drop));
    refused(Fault::BadTurns, 0, task().trace(0, Order::Kernel).map(drop));
    refused(Fault::BadOrder, 0, task().run(5, Order::Starving(64)).map(drop));
    refused(Fault::BadStates, 0, task().explore(0, false).map(drop));
    refused(Fault::NoEvent, 2, task().replay(b"D 0 0\nX\n").map(drop));
    refused(Fault::NotRunnable, 1, task().look(b"D 0 9\n").map(drop));
    refused(Fault::Unfinished, 0, task().replay(b"").map(drop));
    let error = Error { fault: Fault::LineTooLong, place: 2 };
    assert_eq!((error.fault.name(), error.to_string().as_str()), ("LineTooLong", "a line has more than 511 bytes (at 2)"));
    for number in 0..100 {
        let fault = Fault::of(number);
        assert_eq!(fault.number(), number);
        assert!(matches!(fault, Fault::Other(_)) || fault.name() == format!("{fault:?}"));
    }
    let boxed: Box<dyn std::error::Error + Send + Sync> = Box::new(error);
    assert!(boxed.to_string().contains("511"));
}

#[test]
fn answers_and_tasks_go_to_other_threads() {
    let told = task().plain().unwrap();
    let there = thread::spawn(move || told.out().to_vec()).join().unwrap();
    assert_eq!(there, b"hello\n3 3 10 \n");
    let one = task();
    let outs: Vec<Vec<u8>> = thread::scope(|scope| {
        let runs: Vec<_> = (0..8)
            .map(|seed| {
                let one = &one;
                scope.spawn(move || one.run(100_000, Order::Drawn(seed)).unwrap())
            })
            .collect();
        runs.into_iter().map(|it| it.join().unwrap().out().to_vec()).collect()
    });
    assert!(outs.iter().all(|it| it == b"hello\n3 3 10 \n"));
}

#[test]
fn the_version_is_the_crates() {
    let numbers: Vec<u32> = env!("CARGO_PKG_VERSION").split('.').map(|it| it.parse().unwrap()).collect();
    assert_eq!(xvsh::version_number() / 1000, numbers[0] * 1000 + numbers[1]);
}

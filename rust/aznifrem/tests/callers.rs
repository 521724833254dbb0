//! Callers of every kind: many at once, with large rooms; and one that is killed, or whose relay is.

use std::thread;

use aznifrem::{HIGHEST_LIMIT, Lent, Mapper, call};
use codes::Random;
use codes::random::jumpy;

#[test]
fn many_threads_have_the_answers_of_one() {
    let mut random = Random::new(12);
    let codes: Vec<Vec<u8>> = (0..40).map(|_| jumpy(&mut random, 60)).collect();
    let answers = || -> Vec<Vec<u8>> {
        let mut mapper = Mapper::new();
        let mut answer = |code: &Vec<u8>| mapper.entries(code, HIGHEST_LIMIT).map(<[u8]>::to_vec);
        codes
            .iter()
            .map(|code| answer(code).expect("answered"))
            .collect()
    };
    let alone = answers();
    thread::scope(|scope| {
        let threads: Vec<_> = (0..6).map(|_| scope.spawn(answers)).collect();
        for thread in threads {
            assert_eq!(thread.join().expect("it ends well"), alone);
        }
    });
}

#[test]
fn hundreds_of_mebibytes_are_lent_and_wiped() {
    let mut large = vec![0; 256 << 20];
    // Zeros but for two bytes: those are wiped too.
    large[200 << 20] = 1;
    *large.last_mut().expect("it has a last byte") = 2;
    let (mut w, mut room, mut out) = ([3; 320], [[3; 64]; 4], [3; 64]);
    let [p, t, r, q] = &mut room;
    let mut lent = Lent {
        w: &mut w,
        p,
        s: &mut large,
        t,
        r,
        q,
        out: &mut out,
    };
    assert_eq!(call(&[0x00], 0, &mut lent), 29);
    assert!(large.iter().all(|byte| *byte == 0));
    assert_eq!((w, room), ([0; 320], [[0; 64]; 4]));
    assert_eq!(out[29..], [3; 35]);
}

#[cfg(not(target_arch = "x86_64"))]
mod relays {
    use std::io::{BufRead, BufReader};
    use std::path::Path;
    use std::process::{Command, Stdio, id};
    use std::time::{Duration, Instant};
    use std::{env, fs, thread};

    use aznifrem::{Error, HIGHEST_LIMIT, Map, Mapper};

    /// The processes that a process has started.
    fn children(process: u32) -> Vec<String> {
        let tasks = fs::read_dir(format!("/proc/{process}/task")).expect("it runs");
        let of_task = |task: fs::DirEntry| fs::read_to_string(task.path().join("children"));
        let lines: Vec<String> = tasks.flatten().flat_map(of_task).collect();
        lines
            .iter()
            .flat_map(|line| line.split_whitespace())
            .map(String::from)
            .collect()
    }

    fn kill(process: &str) {
        let killed = Command::new("sh")
            .args(["-c", "kill -9 \"$0\"", process])
            .status();
        assert!(killed.is_ok_and(|status| status.success()));
    }

    /// Whether a process ends within some seconds.
    fn ends(process: &str) -> bool {
        let until = Instant::now() + Duration::from_secs(30);
        while Instant::now() < until {
            let status = fs::read_to_string(Path::new("/proc").join(process).join("stat"));
            if status.is_err() || status.is_ok_and(|text| text.contains(") Z ")) {
                return true;
            }
            thread::sleep(Duration::from_millis(50));
        }
        false
    }

    /// This test's program again, in one of the tests that are ignored.
    fn again(test: &str) -> Command {
        let mut command = Command::new(env::current_exe().expect("it has a path"));
        command.args(["--ignored", "--exact", "--nocapture", test]);
        command.stdout(Stdio::piped()).stderr(Stdio::null());
        command
    }

    /// What follows these words on a line.
    fn after(words: &str, mut lines: impl Iterator<Item = String>) -> String {
        let found = lines.find_map(|line| line.split_once(words).map(|(_, rest)| rest.into()));
        found.expect("it says so")
    }

    #[test]
    fn a_relay_that_is_killed_is_told_and_the_next_call_is_answered() {
        let run = again("relays::kills_its_relay").output().expect("it runs");
        assert!(run.status.success());
        let printed = String::from_utf8_lossy(&run.stdout);
        let told = after("told: ", printed.lines().map(String::from));
        let sentence = "the relay that runs the library ended (signal: 9 (SIGKILL)):";
        assert!(told.starts_with(sentence), "{told}");
    }

    #[test]
    #[ignore = "it is a process of its own"]
    fn kills_its_relay() {
        let kill_relays = || children(id()).iter().for_each(|relay| kill(relay));
        let mut mapper = Mapper::new();
        let stored = mapper.entries(&[0x00], 0).expect("answered").to_vec();
        kill_relays();
        let error = mapper.entries(&[0x00], 0).expect_err("the relay is gone");
        assert!(matches!(error, Error::NotRelayed(_)));
        println!("told: {error}");
        assert_eq!(mapper.entries(&[0x00], 0).map(<[u8]>::len), Ok(29));
        kill_relays();
        let told = mapper.map(&[0x00], 0);
        assert!(matches!(told, Err(Error::NotRelayed(_))), "{told:?}");
        let map = mapper.map(&[0x00], 0).expect("answered");
        kill_relays();
        let told = Map::try_from_bytes(&stored).expect_err("the relay is gone");
        assert_eq!(told.to_string(), error.to_string());
        assert_eq!(Map::try_from_bytes(&stored), Ok(Ok(map)));
    }

    #[test]
    fn a_relay_ends_when_its_caller_does_and_in_a_long_call_too() {
        for test in ["relays::calls_and_waits", "relays::calls_for_long"] {
            let mut child = again(test).spawn().expect("it runs");
            let lines = BufReader::new(child.stdout.take().expect("it is piped")).lines();
            let relay = after("relay: ", lines.map_while(Result::ok));
            thread::sleep(Duration::from_millis(500));
            child.kill().expect("it runs still");
            child.wait().expect("it is over");
            assert!(ends(&relay), "{test}: {relay} is still there");
        }
    }

    fn say_relay() {
        Mapper::new().entries(&[0x00], 0).expect("answered");
        println!("relay: {}", children(id()).join(" "));
    }

    #[test]
    #[ignore = "it is a process of its own"]
    fn calls_and_waits() {
        say_relay();
        thread::sleep(Duration::from_secs(600));
    }

    #[test]
    #[ignore = "it is a process of its own"]
    fn calls_for_long() {
        say_relay();
        loop {
            let long = Mapper::new()
                .entries(&codes::worst::diamonds(15), HIGHEST_LIMIT)
                .map(<[u8]>::len);
            long.expect("answered");
        }
    }
}

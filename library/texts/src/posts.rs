//! The eleven posts of SPECIFICATION 16.1.

fn build(bound: usize, invariant: bool, late: bool, rearm: bool) -> Vec<u8> {
    let wait = if invariant { format!("Wait {{ x <= {bound} }}") } else { "Wait".to_string() };
    let reset = if rearm { " assign x = 0;" } else { "" };
    let late = match late {
        true => format!("Wait -> Done {{ guard x >= {bound}; sync late!; }},\n"),
        false => String::new(),
    };
    let text = format!(
        "broadcast chan pass, spike, late;\nprocess Post() {{\nclock x;\nstate {wait}, Done;\ninit Wait;\n\
         trans\nWait -> Done {{ sync pass?; }},\nWait -> Wait {{ sync spike?;{reset} }},\n{late}\
         Done -> Done {{ sync pass?; }},\nDone -> Done {{ sync spike?; }};\n}}\nsystem Post;\n"
    );
    text.into_bytes()
}

pub fn post() -> Vec<u8> {
    build(3, true, true, false)
}

/// A spike sets the clock to 0.
pub fn rearm() -> Vec<u8> {
    build(3, true, true, true)
}

/// 2 for both 3s.
pub fn early() -> Vec<u8> {
    build(2, true, true, false)
}

/// Without the `late!` edge.
pub fn hush() -> Vec<u8> {
    build(3, true, false, false)
}

/// Hush without the invariant.
pub fn idle() -> Vec<u8> {
    build(3, false, false, false)
}

/// Strict signs that say the same over whole ticks.
pub fn strict() -> Vec<u8> {
    changed(&[("x <= 3", "x < 4"), ("x >= 3", "x > 2")])
}

/// `late!` may come a tick before it has to.
pub fn loose() -> Vec<u8> {
    changed(&[("x >= 3", "x >= 2")])
}

/// A third location that no edge leads to.
pub fn spare() -> Vec<u8> {
    const DONE: &str = "Done -> Done { sync spike?; };";
    const OFF: &str = "Done -> Done { sync spike?; },\nOff -> Off { sync pass?; },\nOff -> Off { sync spike?; };";
    changed(&[(", Done;", ", Done, Off { x <= 0 };"), (DONE, OFF)])
}

/// Bounds in milliseconds: at a tick length of 1,000 those of the post.
pub fn sheet() -> Vec<u8> {
    changed(&[("x <= 3", "x <= 3000"), ("x >= 3", "x >= 2500")])
}

/// The first edge a second time, behind the first.
pub fn twice() -> Vec<u8> {
    const PASS: &str = "Wait -> Done { sync pass?; },\n";
    changed(&[(PASS, &PASS.repeat(2))])
}

/// A spike sets the clock to 1: the unit that it wakes has used a tick already.
pub fn woken() -> Vec<u8> {
    changed(&[("Wait -> Wait { sync spike?; }", "Wait -> Wait { sync spike?; assign x = 1; }")])
}

/// The post with parts replaced, each of which must be there.
fn changed(parts: &[(&str, &str)]) -> Vec<u8> {
    let mut text = String::from_utf8(post()).expect("a post");
    for (old, new) in parts {
        assert!(text.contains(old), "{old}");
        text = text.replace(old, new);
    }
    text.into_bytes()
}

//! Texts of a chosen size for the benchmark.

/// Whether the right takes every step the left makes.
#[derive(Clone, Copy, Debug, PartialEq, Eq)]
pub enum Kind {
    Refining,
    Departing,
}

/// Left and right with one location and two clocks of `values` values each, so `values`² states.
///
/// Input `a` sets the left's clock x to 0, `b` its y; `c` sets the right's x, the output `o` its y.
/// So the four clocks drift apart, and every pair of states is reached. The other channels change
/// nothing; half of them are inputs, half are outputs that the left makes in a part of its states
/// and the right in all. A departing right does not make `o` while its x is over the largest constant.
pub fn drifting(values: usize, channels: usize, kind: Kind) -> (Vec<u8>, Vec<u8>) {
    let top = values - 2;
    let names: Vec<String> = ["a", "b", "c", "o"].map(str::to_string).into_iter().collect();
    let names: Vec<String> = names.into_iter().chain((4..channels).map(|i| format!("more{i}"))).collect();
    let mut left = vec![always("o!", "")];
    let mut right = match kind {
        Kind::Refining => vec![always("o!", "y")],
        Kind::Departing => vec![guarded(&format!("x <= {top}"), "o!", "y")],
    };
    left.extend(["a", "b", "c"].iter().zip(["x", "y", ""]).flat_map(|(name, reset)| input(name, reset, top)));
    right.extend(["a", "b", "c"].iter().zip(["", "", "x"]).flat_map(|(name, reset)| input(name, reset, top)));
    for (i, name) in names.iter().enumerate().skip(4) {
        if i % 2 == 0 {
            left.extend(input(name, "", top));
            right.extend(input(name, "", top));
        } else {
            left.push(guarded(&format!("x >= {} && y <= {top}", i % top), &format!("{name}!"), ""));
            right.push(always(&format!("{name}!"), ""));
        }
    }
    (text("x, y", &names, "L", &left), text("x, y", &names, "L", &right))
}

/// Two edges for an input, so that both clocks are compared with the largest constant.
fn input(name: &str, reset: &str, top: usize) -> Vec<String> {
    let clock = if name == "a" { "x" } else { "y" };
    let sync = format!("{name}?");
    vec![guarded(&format!("{clock} <= {}", top - 1), &sync, reset), guarded(&format!("{clock} >= {top}"), &sync, reset)]
}

fn always(sync: &str, reset: &str) -> String {
    format!("L -> L {{ sync {sync};{} }}", assigned(reset))
}

fn guarded(guard: &str, sync: &str, reset: &str) -> String {
    format!("L -> L {{ guard {guard}; sync {sync};{} }}", assigned(reset))
}

fn assigned(reset: &str) -> String {
    match reset {
        "" => String::new(),
        clock => format!(" assign {clock} = 0;"),
    }
}

/// A text whose initial location is L.
fn text(clocks: &str, names: &[String], locations: &str, edges: &[String]) -> Vec<u8> {
    let channels = names.join(", ");
    let edges = edges.join(",\n");
    let text = format!(
        "broadcast chan {channels};\nprocess P() {{\nclock {clocks};\nstate {locations};\ninit L;\n\
         trans\n{edges};\n}}\nsystem P;\n"
    );
    text.into_bytes()
}

/// The post of SPECIFICATION 16.1 with a larger bound and a second clock that a spike sets to 0: two
/// locations, `values` × `values` / 2 clock values, so about `values`² states; a part of the pairs is related.
pub fn scaled_post(values: usize) -> Vec<u8> {
    let (top, second) = (values - 2, values / 2 - 2);
    let names: Vec<String> = ["pass", "spike", "late"].map(str::to_string).into_iter().collect();
    let edges: Vec<String> = vec![
        "L -> D { sync pass?; }".to_string(),
        "L -> L { sync spike?; assign y = 0; }".to_string(),
        format!("L -> D {{ guard x >= {top} && y >= {second}; sync late!; }}"),
        format!("L -> D {{ guard x >= {top} && y <= {}; sync late!; assign y = 0; }}", second - 1),
        "D -> D { sync pass?; }".to_string(),
        "D -> D { sync spike?; assign y = 0; }".to_string(),
    ];
    text("x, y", &names, &format!("L {{ x <= {top} }}, D"), &edges)
}

/// Which states of a text are reached from its start, and what is found there.
#[derive(Clone, Copy, Debug, PartialEq, Eq)]
pub enum Reach {
    /// All states, and each has the tick alone.
    All,
    /// Only those in which both clocks have the same value.
    Few,
    /// All states, and the last one has an output beside the tick.
    Fault,
}

/// A text that takes inputs and lets time pass: one location, two clocks of `values` values each, so `values`² states,
/// and `channels` channels, all of them inputs but the last. Input `a` sets the clock x to 0, `b` sets y, so every pair
/// of values comes; where few states are to be reached, they set nothing. The output `o` comes where there is to be a
/// fault, when both clocks are over the largest constant.
pub fn passive(values: usize, channels: usize, reach: Reach) -> Vec<u8> {
    let top = values - 2;
    let mut names: Vec<String> = ["a", "b"].map(str::to_string).into_iter().collect();
    names.extend((2..channels - 1).map(|i| format!("more{i}")));
    let reset = |name: &str| match name {
        "a" if reach != Reach::Few => "x",
        "b" if reach != Reach::Few => "y",
        _ => "",
    };
    let mut edges: Vec<String> = names.iter().flat_map(|name| input(name, reset(name), top)).collect();
    names.push("o".to_string());
    if reach == Reach::Fault {
        edges.push(guarded(&format!("x > {top} && y > {top}"), "o!", ""));
    }
    text("x, y", &names, "L", &edges)
}

/// 32 locations, of which each but the first waits for its clock to have its largest constant and then, by an output,
/// leads to the one declared before it. The clock has `values` values, so there are 32 × `values` states. They are
/// reached one after another, the locations against the order of the state numbers.
pub fn relay(values: usize) -> Vec<u8> {
    let (top, count) = (values - 2, 32);
    let name = |i: usize| if i == count - 1 { "L".to_string() } else { format!("M{i}") };
    let waiting = (1..count).map(|i| format!("{} {{ x <= {top} }}", name(i)));
    let locations: Vec<String> = std::iter::once(name(0)).chain(waiting).collect();
    let down = |i| format!("{} -> {} {{ guard x >= {top}; sync down!; assign x = 0; }}", name(i), name(i - 1));
    let edges: Vec<String> = (1..count).map(down).collect();
    text("x", &["down".to_string()], &locations.join(", "), &edges)
}

/// A chain of 32 locations, each with an output to the one declared before it; in the first one the left
/// makes an output that the right does not. The clock has `values` values, so there are 32 × `values`
/// states. Pairs fall one location after another, against the order of the state numbers.
pub fn chain(values: usize) -> (Vec<u8>, Vec<u8>) {
    let names: Vec<String> = ["down", "last"].map(str::to_string).into_iter().collect();
    let locations: Vec<String> = (0..32).map(|i| if i == 31 { "L".to_string() } else { format!("M{i}") }).collect();
    let down = |i: usize| format!("{} -> {} {{ sync down!; }}", locations[i + 1], locations[i]);
    let mut edges: Vec<String> = (0..31).map(down).collect();
    edges.push(format!("M0 -> M0 {{ guard x <= {}; sync down!; }}", values - 2));
    let right = text("x", &names, &locations.join(", "), &edges);
    edges.push("M0 -> M0 { sync last!; }".to_string());
    (text("x", &names, &locations.join(", "), &edges), right)
}

/// One location and so many edges for one output, each at a single value of the clock.
pub fn at_single_values(count: usize) -> Vec<u8> {
    let edges: Vec<String> = (0..count).map(|value| guarded(&format!("x == {value}"), "o!", "")).collect();
    text("x", &["o".to_string()], "L", &edges)
}

/// A text whose states lie in rows of two: one location, a clock x that nothing compares, so that it has two values, and
/// clocks y and z of `values` values each, so 2 × `values`² states. All channels are inputs with two edges each, by the
/// value of y or z; the first sets y to 0, the second z.
pub fn short_rows(values: usize, channels: usize) -> Vec<u8> {
    let top = values - 2;
    let names: Vec<String> = (0..channels).map(|i| format!("c{i}")).collect();
    let mut edges = Vec::new();
    for (i, name) in names.iter().enumerate() {
        let clock = ["y", "z"][i % 2];
        let (reset, sync) = (if i < 2 { clock } else { "" }, format!("{name}?"));
        edges.push(guarded(&format!("{clock} <= {}", top - i), &sync, reset));
        edges.push(guarded(&format!("{clock} > {}", top - i), &sync, reset));
    }
    let largest = [format!("y <= {top}"), format!("z <= {top}")].join(" && ");
    edges.push(guarded(&largest, "out!", ""));
    let names: Vec<String> = names.into_iter().chain(["out".to_string()]).collect();
    text("x, y, z", &names, "L", &edges)
}

/// 8 × `channels` edges with four comparisons each, 128 for 16 channels, filled up with spaces to 32,768 bytes. The
/// clocks have `values` and `values` / 2 values, and there are 8 locations.
pub fn full_of_edges(values: usize, channels: usize) -> Vec<u8> {
    let (top, second) = (values - 2, values / 2 - 2);
    let names: Vec<String> = (0..channels).map(|i| format!("c{i}")).collect();
    let locations: Vec<String> = (0..8).map(|i| if i == 0 { "L".to_string() } else { format!("L{i}") }).collect();
    let mut edges = Vec::new();
    for (i, location) in locations.iter().enumerate() {
        for (j, name) in names.iter().enumerate() {
            let target = &locations[(i + j) % 8];
            let guard = format!("x >= {} && x <= {top} && y >= {} && y <= {second}", j % top, i % second);
            edges.push(format!("{location} -> {target} {{ guard {guard}; sync {name}!; assign x = 0, y = 0; }}"));
        }
    }
    let mut text = text("x, y", &names, &locations.join(", "), &edges);
    text.resize(32_768, b' ');
    text
}

/// 32,768 bytes with about as many tokens: one edge that sets a clock to 0 again and again.
pub fn full_of_tokens() -> Vec<u8> {
    let front = "broadcast chan c;process P(){clock x;state L;init L;trans L->L{sync c!;assign x=0";
    let rear = ";};}system P;";
    let mut text = front.as_bytes().to_vec();
    while text.len() + 4 + rear.len() <= 32_768 {
        text.extend_from_slice(b",x=0");
    }
    text.extend_from_slice(rear.as_bytes());
    text.resize(32_768, b' ');
    text
}

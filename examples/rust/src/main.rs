//! Grades students' scripts: what each prints, and whether it prints that every time; and draws a run of the first.
//!
//!     cargo run --offline --manifest-path examples/rust/Cargo.toml
use xvsh::{Order, Task};

fn main() {
    let wanted = b"apple pie\n2 3 15 \n";
    let scripts: [&[u8]; 3] = [
        b"grep p fruit | head -1 ; grep p fruit | wc\n",
        b"grep p fruit | tee found | cat found\n",
        b"echo \0\n",
    ];
    for (number, script) in scripts.iter().enumerate() {
        println!("script {}", number + 1);
        match Task::new(script).file("fruit", "apple pie\nplum\nfig\n").plain() {
            Ok(answer) => {
                let right = if answer.out() == wanted { "right" } else { "wrong" };
                let settled = if answer.is_settled() { "settled" } else { "not settled" };
                println!("  {right}, {settled}, {} files", answer.files().len());
            }
            Err(error) => println!("  refused: {} (fault {}, line {})", error.fault.text(), error.fault.number(), error.place),
        }
    }
    // a picture in SVG, for a page or a report: its second line is its title
    match Task::new(scripts[0]).file("fruit", "apple pie\nplum\nfig\n").draw_svg(100_000, Order::Kernel) {
        Ok(run) => println!("drawn: {}", String::from_utf8_lossy(run.events()).lines().nth(1).unwrap_or("nothing")),
        Err(error) => println!("not drawn: {}", error.fault.text()),
    }
}

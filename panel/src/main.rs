use std::process::ExitCode;

fn main() -> ExitCode {
    panel::program::run()
}

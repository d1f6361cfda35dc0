use std::process::ExitCode;

fn main() -> ExitCode {
    second::run()
}

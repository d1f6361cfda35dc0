use std::process::ExitCode;

fn main() -> ExitCode {
    candump::program::run(&candump::to_candump::PROGRAM)
}

use std::env;
use std::process::ExitCode;

fn main() -> ExitCode {
    ExitCode::from(lintelow_show::call::run(env::args_os().skip(1)) as u8)
}

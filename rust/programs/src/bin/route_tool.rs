//! The program of `crates/route_tool`.
fn main() -> std::process::ExitCode {
    let page = include_str!("../../../../docs/ROUTES.md");
    programs::start("route_tool", page, &["--read-on"], programs::route_tool::main)
}

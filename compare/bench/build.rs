#[path = "../link.rs"]
mod link;

fn main() {
    link::link(&["leaf_bench", "block_bench"]);
}

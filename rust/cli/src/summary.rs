//! A map for a reader.

use std::fmt::Write;

use aznifrem::{Block, BlockType, DynamicJump, Map};
use compare::{Totals, is_unresolved};

/// A line with the figures, a line for each block, its paths below it. Addresses stand in decimal, as
/// in the entries, and beside that in hexadecimal, as disassemblers have them.
pub fn text(name: &str, map: &Map) -> String {
    let mut text = figures(name, map);
    for block in map.blocks.values() {
        // Writing to a String does not fail.
        let _ = writeln!(text, "  {}", line(block));
        for jump in block.btype.found() {
            let _ = writeln!(text, "      {}", way(jump));
        }
    }
    text
}

fn line(block: &Block) -> String {
    let (start, end, name) = (block.start, block.end, block.btype.name());
    let end_of_it = match &block.btype {
        BlockType::Terminate { success: true } => ", success".into(),
        BlockType::Terminate { success: false } => ", failure".into(),
        BlockType::Jump { to } => format!(" to {}", both(*to)),
        BlockType::Jumpi { true_to, false_to } => {
            format!(" to {}, else to {}", both(*true_to), both(*false_to))
        }
        BlockType::DynamicJump { .. } => paths(block),
        BlockType::DynamicJumpi { false_to, .. } => {
            format!("{}, else to {}", paths(block), both(*false_to))
        }
    };
    format!("{start}-{end} ({start:#x}-{end:#x}) {name}{end_of_it}")
}

fn paths(block: &Block) -> String {
    let unresolved = if is_unresolved(block) {
        ", unresolved"
    } else {
        ""
    };
    format!("{unresolved}, paths: {}", block.btype.found().len())
}

fn both(address: usize) -> String {
    format!("{address} ({address:#x})")
}

fn way(jump: &DynamicJump) -> String {
    let to = jump.to.map_or("nowhere known".into(), both);
    let path: Vec<String> = jump.path.iter().map(usize::to_string).collect();
    let hex: Vec<String> = jump
        .path
        .iter()
        .map(|start| format!("{start:#x}"))
        .collect();
    format!("to {to} by {} ({})", path.join(", "), hex.join(", "))
}

fn figures(name: &str, map: &Map) -> String {
    let found = map.records.iter().filter(|record| record.jump.to.is_some());
    let found = found.count();
    let Totals {
        bytes,
        blocks,
        dynamic,
        unresolved,
        records,
        energy,
    } = Totals::of(map);
    format!(
        "{name}: bytes {bytes}; blocks {blocks}, dynamic {dynamic}, unresolved {unresolved}; paths recorded {records}, with a destination {found}; energy {energy}\n"
    )
}

#[cfg(test)]
mod tests {
    use super::text;

    fn of(code: &[u8], limit: u64) -> String {
        text("a", &aznifrem::map(code, limit).expect("it has a map"))
    }

    #[test]
    fn addresses_stand_in_both_forms() {
        // 0 and 24 call 29 with different returns.
        let mut code = vec![0x60, 24, 0x60, 29, 0x56];
        code.resize(24, 0x00);
        code.extend([0x5b, 0x60, 28, 0x50, 0x00, 0x5b, 0x56]);
        assert!(of(&code, 500_000).ends_with(
            "  0-4 (0x0-0x4) Jump to 29 (0x1d)
  24-28 (0x18-0x1c) Terminate, success
  29-30 (0x1d-0x1e) Jump to 24 (0x18)
"
        ));
        let bare = of(&code, 0);
        let line = "  29-30 (0x1d-0x1e) DynamicJump, unresolved, paths: ";
        assert!(bare.contains(line), "{bare}");
    }

    #[test]
    fn each_way_of_a_dynamic_jump_has_a_line() {
        // 0 calls 13 and comes back to 5, which calls it again and comes back to 11.
        let code = [
            0x60, 5, 0x60, 13, 0x56, 0x5b, 0x60, 11, 0x60, 13, 0x56, 0x5b, 0x00, 0x5b, 0x56,
        ];
        let said = of(&code, 500_000);
        assert!(
            said.ends_with(
                "  13-14 (0xd-0xe) DynamicJump, paths: 2
      to 5 (0x5) by 13, 0 (0xd, 0x0)
      to 11 (0xb) by 13, 5 (0xd, 0x5)
"
            ),
            "{said}"
        );
    }
}

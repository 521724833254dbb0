use aznifrem::{BlockType, HIGHEST_LIMIT, Mapper};

fn main() -> Result<(), Box<dyn std::error::Error>> {
    let code = [0x60, 5, 0x60, 7, 0x56, 0x5b, 0x00, 0x5b, 0x56];
    let mut mapper = Mapper::new();
    let map = mapper.map(&code, HIGHEST_LIMIT)?;
    assert_eq!(map.blocks[&7].btype, BlockType::Jump { to: 5 });
    assert_eq!(map.records[0].jump.path, [7, 0]);
    Ok(())
}

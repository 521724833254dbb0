use aznifrem::BlockType;
use aznifrem::{Error, HIGHEST_LIMIT, Mapper};

/// Every jump whose destination is known: from which block, and to which.
fn jumps(mapper: &mut Mapper, code: &[u8]) -> Result<Vec<(usize, usize)>, Error> {
    let graph = mapper.map(code, HIGHEST_LIMIT)?;
    let mut jumps = Vec::new();
    for (start, block) in &graph.blocks {
        match &block.btype {
            BlockType::Terminate { .. } => {}
            BlockType::Jump { to } => jumps.push((*start, *to)),
            BlockType::Jumpi { true_to, false_to } => {
                jumps.extend([(*start, *true_to), (*start, *false_to)]);
            }
            BlockType::DynamicJump { to } => {
                jumps.extend(to.iter().filter_map(|jump| Some((*start, jump.to?))));
            }
            BlockType::DynamicJumpi { true_to, false_to } => {
                jumps.extend(true_to.iter().filter_map(|jump| Some((*start, jump.to?))));
                jumps.push((*start, *false_to));
            }
        }
    }
    Ok(jumps)
}

fn main() -> Result<(), Error> {
    let mut mapper = Mapper::new();
    let code = [0x60, 5, 0x60, 7, 0x56, 0x5b, 0x00, 0x5b, 0x56];
    println!("{:?}", jumps(&mut mapper, &code)?);
    Ok(())
}

use evmole::control_flow_graph::BlockType;
use evmole::{ContractInfoArgs, contract_info};

/// Every jump whose destination is known: from which block, and to which.
fn jumps(code: &[u8]) -> Vec<(usize, usize)> {
    let info = contract_info(ContractInfoArgs::new(code).with_control_flow_graph());
    let graph = info.control_flow_graph.expect("it was asked for");
    let mut jumps = Vec::new();
    for (start, block) in &graph.blocks {
        match &block.btype {
            BlockType::Terminate { .. } => {}
            BlockType::Jump { to } => jumps.push((*start, *to)),
            BlockType::Jumpi { true_to, false_to } => {
                jumps.extend([(*start, *true_to), (*start, *false_to)]);
            }
            BlockType::DynamicJump { to } => {
                jumps.extend(to.iter().filter_map(|jump| Some((*start, jump.to?))));
            }
            BlockType::DynamicJumpi { true_to, false_to } => {
                jumps.extend(true_to.iter().filter_map(|jump| Some((*start, jump.to?))));
                jumps.push((*start, *false_to));
            }
        }
    }
    jumps
}

fn main() {
    let code = [0x60, 5, 0x60, 7, 0x56, 0x5b, 0x00, 0x5b, 0x56];
    println!("{:?}", jumps(&code));
}

//! The blocks of a map as the web page takes them: what serde makes of evmole's.

use std::fmt::Write;

use crate::map::{Block, BlockType, DynamicJump, Map};

impl Map {
    /// The blocks as JSON, the same text as the library writes of the same map
    /// ([`Mapper::json`](crate::Mapper::json)): for maps that were stored.
    ///
    /// ```
    /// use aznifrem::Mapper;
    ///
    /// let mut mapper = Mapper::new();
    /// let map = mapper.map(&[0x00], 500_000)?;
    /// assert_eq!(map.to_json(), mapper.json(&[0x00], 500_000)?);
    /// # Ok::<(), aznifrem::Error>(())
    /// ```
    pub fn to_json(&self) -> String {
        let mut text = String::new();
        list(&mut text, self.blocks.values(), block);
        text
    }
}

fn list<T>(text: &mut String, items: impl IntoIterator<Item = T>, add: fn(&mut String, T)) {
    text.push('[');
    for (at, item) in items.into_iter().enumerate() {
        if at > 0 {
            text.push(',');
        }
        add(text, item);
    }
    text.push(']');
}

fn block(text: &mut String, block: &Block) {
    let (start, end, name) = (block.start, block.end, block.btype.name());
    put(
        text,
        format_args!(r#"{{"id":{start},"start":{start},"end":{end},"type":"{name}","data":{{"#),
    );
    match &block.btype {
        BlockType::Terminate { success } => put(text, format_args!(r#""success":{success}"#)),
        BlockType::Jump { to } => put(text, format_args!(r#""to":{to}"#)),
        BlockType::Jumpi { true_to, false_to } => put(
            text,
            format_args!(r#""true_to":{true_to},"false_to":{false_to}"#),
        ),
        BlockType::DynamicJump { to } => {
            text.push_str(r#""to":"#);
            list(text, to, jump);
        }
        BlockType::DynamicJumpi { true_to, false_to } => {
            text.push_str(r#""true_to":"#);
            list(text, true_to, jump);
            put(text, format_args!(r#","false_to":{false_to}"#));
        }
    }
    text.push_str("}}");
}

fn jump(text: &mut String, jump: &DynamicJump) {
    text.push_str(r#"{"path":"#);
    list(text, &jump.path, |text, place| {
        put(text, format_args!("{place}"));
    });
    match jump.to {
        Some(to) => put(text, format_args!(r#","to":{to}}}"#)),
        None => text.push_str(r#","to":null}"#),
    }
}

fn put(text: &mut String, words: std::fmt::Arguments) {
    // Writing to a String does not fail.
    let _ = text.write_fmt(words);
}

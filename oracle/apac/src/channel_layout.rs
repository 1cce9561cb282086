//! Stand-in: the table of speaker layouts, used by the decoder only.

pub struct Layout {
    pub family: u64,
    pub level: u64,
    pub name: &'static str,
}

pub fn layout(_channels: u64) -> Option<Layout> {
    unimplemented!("speaker layouts are out of scope")
}

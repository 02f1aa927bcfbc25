//! Stands in for the crate of this name, so that `scenario.rs` compiles. The compared functions
//! never reach it.

pub mod lvgl {
    pub const STATES: &[(u32, &str)] = &[];

    #[derive(Copy, Clone, Debug, PartialEq, Eq)]
    pub struct Color;

    impl Color {
        pub fn render(self) -> String {
            String::new()
        }
    }

    pub struct UiNode {
        pub obj: u32,
        pub parent: u32,
        pub depth: usize,
        pub reference: String,
        pub class: String,
        pub text: Option<String>,
        pub bg: Option<Color>,
        pub border: Option<Color>,
        pub x: i32,
        pub y: i32,
        pub w: i32,
        pub h: i32,
    }

    impl UiNode {
        pub fn is_hidden(&self) -> bool {
            false
        }

        pub fn states(&self) -> Vec<&'static str> {
            Vec::new()
        }
    }

    pub struct UiTree {
        pub nodes: Vec<UiNode>,
        pub hor_res: i32,
        pub ver_res: i32,
    }
}

//! A `derive(Format)` of a struct with at most one parameter, a type. Nothing is written.
use proc_macro::TokenStream;

#[proc_macro_derive(Format)]
pub fn derive(input: TokenStream) -> TokenStream {
    let words: Vec<String> = input.into_iter().map(|word| word.to_string()).collect();
    let at = words.iter().position(|word| word == "struct").expect("a struct") + 1;
    let (name, generics) = match &words[at + 1..] {
        [open, parameter, ..] if open == "<" => (format!("{}<{parameter}>", words[at]), format!("<{parameter}: ::defmt::Format>")),
        _ => (words[at].clone(), String::new()),
    };
    let item = format!("impl{generics} ::defmt::Format for {name} {{ fn format(&self, _: ::defmt::Formatter) {{}} }}");
    item.parse().expect("an impl")
}

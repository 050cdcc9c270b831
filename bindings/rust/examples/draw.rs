use perlwynos::{draw, Class, Request};

fn main() {
    for token in ["5:0;OH", "18:1;4OH"] {
        match draw(&Request::new(Class::Fa, &[token.as_bytes()])) {
            Ok(drawn) => println!("{} {:?}", String::from_utf8_lossy(&drawn.line), drawn.carbons),
            Err(refusal) => println!("{refusal}"),
        }
    }
}

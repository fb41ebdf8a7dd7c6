//! Says a page of ten Russian messages from the catalogue in a file.
use plurals::{Argument, Catalog, PluralRules, Value, CLDR};

fn number<'a>(name: &'a str, number: &'a str) -> Argument<'a> {
    Argument { name, value: Value::Number(number) }
}

fn text<'a>(name: &'a str, text: &'a str) -> Argument<'a> {
    Argument { name, value: Value::Text(text) }
}

fn main() -> Result<(), Box<dyn std::error::Error>> {
    let bytes = std::fs::read(std::env::args().nth(1).ok_or("no catalogue is named")?)?;
    let catalog = Catalog::from_bytes(&bytes)?;
    let (cardinal, ordinal) = (PluralRules::try_new_cardinal(CLDR, "ru")?, PluralRules::try_new_ordinal(CLDR, "ru")?);
    let page: [(&str, &[Argument<'_>]); 10] = [
        ("title", &[]),
        ("greeting", &[text("name", "Анна")]),
        ("cart", &[number("n", "21")]),
        ("weight", &[number("n", "1.5")]),
        ("days", &[number("n", "3")]),
        ("discount", &[number("percent", "10")]),
        ("guests", &[number("n", "6")]),
        ("sent", &[text("who", "female"), number("n", "2")]),
        ("place", &[number("n", "3")]),
        ("footer", &[]),
    ];
    for (key, arguments) in page {
        println!("{}", catalog.say(key, arguments, &cardinal, &ordinal)?);
    }
    Ok(())
}

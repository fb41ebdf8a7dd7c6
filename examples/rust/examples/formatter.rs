//! Prints the messages of some numbers and some categories, as ../../c/formatter.c does.
use plurals::{format_pattern, Argument, Message, PluralCategory, PluralRules, PluralsError, RawPluralOperands, Value};

fn main() -> Result<(), PluralsError> {
    let rules = PluralRules::try_from_texts(["", "i = 1 and v = 0", "", "", ""])?;
    let message = Message::from_json(r#"{"other":[0,"{} items"],"one":[0,"{} item"]}"#)?;
    for number in ["0", "1", "1.0", "2", "1c6", "-1", "x", "1c256"] {
        match message.format(number, &rules) {
            Ok(text) => println!("{text}"),
            Err(error) if error.number() == -10 => println!("{number}: it isn't a number"),
            Err(error) if error.number() == -11 => println!("{number}: it is over a limit"),
            Err(error) => return Err(error),
        }
    }
    let operands = RawPluralOperands { i: 1, v: 1, ..RawPluralOperands::default() };
    println!("i 1, v 1: {}", rules.category_for_operands(operands));
    let told = rules.to_table().category_for_integer(1);
    println!("1 by a table: {}", told.map_or("ask the rules", PluralCategory::as_str));
    let categories = rules.categories_for_integers(&[0, 1, 100]);
    println!("0, 1, 100: {}", categories.into_iter().map(PluralCategory::as_str).collect::<Vec<_>>().join(" "));
    let pattern = "{who} sent {n, plural, =0 {no files} one {# file} other {# files}}.";
    let none = PluralRules::try_from_texts([""; 5])?;
    for count in ["0", "1", "1.0"] {
        let who = Argument { name: "who", value: Value::Text("Ann") };
        let count = Argument { name: "n", value: Value::Number(count) };
        println!("{}", format_pattern(pattern, &[who, count], &rules, &none)?);
    }
    Ok(())
}

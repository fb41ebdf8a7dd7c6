//! Values by category.
use crate::operands::PluralOperands;
use crate::{ffi, PluralRules};

/// The names in JSON of the values beside other, each in its place of the list `values`.
const NAMES: [&str; 7] = ["zero", "one", "two", "few", "many", "explicit_zero", "explicit_one"];
const OTHER: &str = "7";

/// A value for each category, of which only that of other has to be present, and one each for exactly 0 and exactly 1.
///
/// ```
/// use plurals::{PluralElements, PluralRules};
///
/// let rules = PluralRules::try_from_texts(["", "i = 1 and v = 0", "", "", ""])?;
/// let texts = PluralElements::new("many doors").with_one_value(Some("a door")).with_explicit_zero_value(Some("no door"));
/// assert_eq!(texts.get(0, &rules), &"no door");
/// assert_eq!(texts.get(1, &rules), &"a door");
/// assert_eq!(texts.get(2, &rules), &"many doors");
/// # Ok::<(), plurals::PluralsError>(())
/// ```
#[derive(Clone, Debug)]
pub struct PluralElements<T> {
    other: T,
    values: [Option<T>; 7],
    /// Packed elements whose texts are the places of the values that are present, so that the library chooses.
    places: Vec<u8>,
}

impl<T: PartialEq> PartialEq for PluralElements<T> {
    fn eq(&self, with: &Self) -> bool {
        self.other == with.other && self.values == with.values
    }
}

impl<T: Eq> Eq for PluralElements<T> {}

fn places<T>(values: &[Option<T>; 7]) -> Vec<u8> {
    let present = values.iter().enumerate().filter(|(_, value)| value.is_some());
    let texts: String = present.map(|(place, _)| format!(r#","{}":[0,"{place}"]"#, NAMES[place])).collect();
    let json = format!(r#"{{"other":[0,"{OTHER}"]{texts}}}"#);
    ffi::elements_from_json(&json).unwrap_or_else(|error| panic!("{error}"))
}

macro_rules! values_of_categories {
    ($($place:literal $value:ident $with_value:ident),*) => {$(
        #[doc = concat!("The value of ", stringify!($value), ", or that of other if it has none.")]
        pub fn $value(&self) -> &T {
            self.values[$place].as_ref().unwrap_or(&self.other)
        }

        #[doc = concat!("Sets the value of ", stringify!($value), ", or with `None` removes it. One that equals that of other is left out.")]
        pub fn $with_value(self, value: Option<T>) -> Self
        where
            T: PartialEq,
        {
            let value = value.filter(|it| *it != self.other);
            self.with($place, value)
        }
    )*};
}

impl<T> PluralElements<T> {
    /// The value of other alone.
    pub fn new(other: T) -> Self {
        let values = Default::default();
        PluralElements { other, places: places(&values), values }
    }

    fn with(mut self, place: usize, value: Option<T>) -> Self {
        self.values[place] = value;
        self.places = places(&self.values);
        self
    }

    values_of_categories!(
        0 zero with_zero_value, 1 one with_one_value, 2 two with_two_value, 3 few with_few_value, 4 many with_many_value
    );

    /// The value of other.
    pub fn other(&self) -> &T {
        &self.other
    }

    /// The value of exactly 0.
    pub fn explicit_zero(&self) -> Option<&T> {
        self.values[5].as_ref()
    }

    /// The value of exactly 1.
    pub fn explicit_one(&self) -> Option<&T> {
        self.values[6].as_ref()
    }

    /// Sets the value of exactly 0, or with `None` removes it.
    pub fn with_explicit_zero_value(self, value: Option<T>) -> Self {
        self.with(5, value)
    }

    /// Sets the value of exactly 1, or with `None` removes it.
    pub fn with_explicit_one_value(self, value: Option<T>) -> Self {
        self.with(6, value)
    }

    /// The value that a number takes: the one of exactly 0 or exactly 1 if it is present, else that of the number's category, else
    /// that of other.
    ///
    /// # Panics
    ///
    /// If there is no memory.
    pub fn get<'a>(&'a self, number: impl Into<PluralOperands>, rules: &PluralRules) -> &'a T {
        let number = number.into().0.text();
        let found = ffi::element(&rules.block, &self.places, &number).unwrap_or_else(|error| panic!("{error}"));
        match found.as_slice() {
            [place @ b'0'..=b'6'] => self.values[usize::from(place - b'0')].as_ref().unwrap_or(&self.other),
            _ => &self.other,
        }
    }

    /// What a closure makes of each value.
    pub fn map<B>(self, mut of_value: impl FnMut(T) -> B) -> PluralElements<B> {
        let other = of_value(self.other);
        PluralElements { other, values: self.values.map(|it| it.map(&mut of_value)), places: self.places }
    }
}

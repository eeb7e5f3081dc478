//! The lines that every text has once.

pub enum Numbers {
    /// One number for each of these.
    Each(&'static [&'static str]),
    /// As many as there are.
    Many(&'static str),
    Sides,
}

pub struct Form {
    /// The words that the line begins with.
    pub key: &'static str,
    pub numbers: Numbers,
    pub example: &'static str,
    /// What a written text says beside it.
    pub note: &'static str,
}

/// In the order in which they are written.
pub const FORMS: [Form; 9] = [
    Form {
        key: "slab",
        numbers: Numbers::Each(&["the slab's thickness in mm"]),
        example: "slab 200",
        note: "thickness",
    },
    Form {
        key: "concrete",
        numbers: Numbers::Each(&["the concrete's fc in MPa"]),
        example: "concrete 30",
        note: "fc",
    },
    Form {
        key: "steel",
        numbers: Numbers::Each(&["the steel's fy in MPa"]),
        example: "steel 420",
        note: "fy",
    },
    Form {
        key: "dead",
        numbers: Numbers::Each(&["the dead load in N/m2"]),
        example: "dead 7200",
        note: "slab included",
    },
    Form {
        key: "live",
        numbers: Numbers::Each(&["the live load in N/m2"]),
        example: "live 5000",
        note: "",
    },
    Form {
        key: "columns",
        numbers: Numbers::Each(&[
            "the columns' size along x in mm",
            "the columns' size along y in mm",
        ]),
        example: "columns 600 500",
        note: "along x, along y",
    },
    Form {
        key: "sides",
        numbers: Numbers::Sides,
        example: "sides west columns, east columns, south unrestrained, north restrained",
        note: "",
    },
    Form {
        key: "x spans",
        numbers: Numbers::Many("an x span in mm"),
        example: "x spans 6600 7200 6600",
        note: "",
    },
    Form {
        key: "y spans",
        numbers: Numbers::Many("a y span in mm"),
        example: "y spans 6000 7000 6400",
        note: "",
    },
];

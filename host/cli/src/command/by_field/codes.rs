//! What a code stands for: the tables of AP-3.1. Version 3.0 has the tariff, emission and fuel values.

/// Codes and their words.
type Table = [(&'static str, &'static str)];

/// The words of a code; none where the table does not have it.
fn listed(table: &Table, code: &str) -> Option<String> {
    table.iter().find(|(known, _)| *known == code).map(|(_, words)| words.to_string())
}

const IDENTIFIERS: &Table = &[("0", "header"), ("1", "body"), ("2", "footer")];

const RECEIVERS: &Table = &[("000002", "AutoPASS IP")];

const VERSIONS: &Table = &[("120001", "complete or incremental list"), ("220001", "incremental list")];

/// Those that AP-3.1 names.
const NATIONALITIES: &Table =
    &[("AT ", "Austria"), ("DK ", "Denmark"), ("NO ", "Norway"), ("SE ", "Sweden"), ("   ", "blank")];

const TARIFFS: &Table = &[
    ("12", "passenger vehicle below or equal to 3,500 kg (M1)"),
    ("22", "light goods vehicle below or equal to 3,500 kg (N1)"),
    ("31", "vehicle above 3,500 kg, more than 8 seats excluding driver (M2, M3)"),
    ("32", "vehicle of class M1 above 3,500 kg"),
    ("41", "heavy goods vehicle above 3,500 kg and below or equal to 12,000 kg (N2)"),
    ("51", "heavy goods vehicle above 12,000 kg (N3)"),
    ("63", "motorcycle (L)"),
    ("71", "other vehicle"),
];

const EMISSIONS: &Table = &[
    ("0     ", "zero emission, unknown, or before the Euro classes"),
    ("Euro1 ", "Euro 1 / Euro I"),
    ("Euro2 ", "Euro 2 / Euro II"),
    ("Euro3 ", "Euro 3 / Euro III"),
    ("Euro4 ", "Euro 4 / Euro IV"),
    ("Euro5 ", "Euro 5 / Euro V"),
    ("EEV   ", "EEV"),
    ("Euro6 ", "Euro 6 / Euro VI"),
    ("Euro7 ", "Euro 7 / Euro VII"),
];

/// Table 3, where each accepted code stands; Table 4 has other words for 10 and 11.
const FUELS: &Table = &[
    ("01", "petrol"),
    ("02", "diesel"),
    ("03", "paraffin"),
    ("04", "gas"),
    ("05", "electric"),
    ("06", "hydrogen"),
    ("09", "other fuels"),
    ("10", "bio petrol"),
    ("11", "biodiesel"),
    ("12", "LPG-gas"),
    ("13", "CNG-gas"),
    ("14", "methanol"),
    ("15", "ethanol"),
    ("20", "compressed air"),
    ("21", "LNG"),
    ("22", "CNG and LNG"),
];

const CHARGEABLE: &Table = &[("Y", "chargeable hybrid"), ("N", "no chargeable hybrid, or unknown")];

const ENGINES: &Table = &[
    ("000", "missing"),
    ("001", "no engine"),
    ("002", "petrol, unleaded"),
    ("003", "petrol, leaded"),
    ("004", "diesel"),
    ("005", "LPG"),
    ("006", "battery exclusively"),
    ("007", "solar"),
    ("008", "hybrid"),
    ("009", "hydrogen"),
    ("010", "multi-fuel"),
    ("011", "bivalent, petrol or liquefied petroleum gas"),
    ("012", "bivalent, petrol or compressed natural gas"),
    ("013", "combined, petrol and electric"),
    ("014", "compressed natural gas"),
    ("015", "liquefied natural gas"),
    ("016", "combined, diesel and electric"),
    ("017", "combined, hydrogen and electric"),
    ("018", "bivalent, hydrogen or petrol"),
    ("019", "bivalent, hydrogen or petrol, combined with electric"),
    ("020", "fuel cell, hydrogen"),
    ("021", "fuel cell, petrol"),
    ("022", "fuel cell, methanol"),
    ("023", "fuel cell, ethanol"),
    ("024", "fuel cell, diesel"),
    ("025", "combined, multi-fuel and electric"),
    ("026", "combined, compressed natural gas and electric"),
    ("027", "combined, liquefied natural gas and electric"),
    ("028", "petrol and mainly ethanol, as E85"),
    ("029", "combined, LPG and electric"),
    ("030", "plug-in hybrid, petrol"),
    ("031", "plug-in hybrid, diesel"),
    ("032", "plug-in hybrid, LPG"),
    ("033", "plug-in hybrid, hydrogen"),
    ("034", "plug-in hybrid, multi-fuel"),
    ("035", "plug-in hybrid, compressed natural gas"),
    ("036", "plug-in hybrid, liquefied natural gas"),
    ("037", "plug-in hybrid, bivalent, hydrogen and petrol"),
    ("038", "hydrogen and compressed natural gas"),
    ("039", "hydrogen and liquefied natural gas"),
    ("040", "plug-in hybrid, hydrogen and compressed natural gas"),
    ("041", "plug-in hybrid, hydrogen and liquefied natural gas"),
    ("042", "ethanol, or ethanol with additives or other fuel than petrol, as E95"),
    ("043", "hybrid, fuel cell and hydrogen"),
    ("044", "plug-in hybrid, fuel cell and hydrogen"),
    ("045", "dual, LNG and diesel"),
    ("046", "electric, external power supply"),
    ("047", "biogas"),
    ("048", "biodiesel"),
    ("049", "bio petrol"),
    ("050", "bivalent, petrol or biogas"),
    ("051", "combined, biogas and electric"),
    ("052", "dual, CNG and diesel"),
    ("255", "other"),
];

pub fn identifier(code: &str) -> Option<String> {
    listed(IDENTIFIERS, code)
}

pub fn receiver(code: &str) -> Option<String> {
    listed(RECEIVERS, code)
}

pub fn version(code: &str) -> Option<String> {
    listed(VERSIONS, code)
}

pub fn nationality(code: &str) -> Option<String> {
    listed(NATIONALITIES, code)
}

pub fn tariff(code: &str) -> Option<String> {
    listed(TARIFFS, code)
}

pub fn emission(code: &str) -> Option<String> {
    listed(EMISSIONS, code)
}

pub fn fuel(code: &str) -> Option<String> {
    listed(FUELS, code)
}

pub fn chargeable(code: &str) -> Option<String> {
    listed(CHARGEABLE, code)
}

pub fn engine(code: &str) -> Option<String> {
    listed(ENGINES, code)
}

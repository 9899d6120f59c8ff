# open.awk: a file of the Rust with its private structs, enums, fields and functions opened, so that states can be handed in. Nothing else changes.
/^(pub )?struct .*\{$/ { within = 1 }
/^(struct|enum|fn) / { $0 = "pub " $0 }
/^impl [A-Z][A-Za-z]* \{$/ { inherent = 1 }
within && /^    [a-z_]+:/ { sub(/^    /, "    pub ") }
inherent && /^    fn / { sub(/^    /, "    pub ") }
/^\}/ { within = 0; inherent = 0 }
{ print }

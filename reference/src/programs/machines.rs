//! The list of machines: a text that a person edits.

use super::folder::MAX_MACHINE;
use super::words::number;
use std::collections::BTreeSet;

/// The bytes that the list may have.
pub const MAX_LIST: usize = 65_536;

/// The last line of a list that was not cut.
const END: &[u8] = b"end";

/// The list of these machines.
pub fn write(machines: &BTreeSet<u8>) -> String {
    let lines: String = machines
        .iter()
        .map(|machine| format!("{machine}\n"))
        .collect();
    format!("# the machines of this store\n{lines}end\n")
}

/// The machines on the list, or what is the matter with it.
pub fn read(list: &[u8]) -> Result<BTreeSet<u8>, String> {
    if list.len() > MAX_LIST {
        return Err(format!("it has more than {MAX_LIST} bytes"));
    }
    let mut machines = BTreeSet::new();
    let mut ended = false;
    for (at, line) in list.split(|&byte| byte == b'\n').enumerate() {
        let line = without_margins(line);
        if line.is_empty() || line.starts_with(b"#") {
            continue;
        }
        if ended {
            return Err(format!("line {} stands behind 'end'", at + 1));
        }
        if line == END {
            ended = true;
            continue;
        }
        let machine = machine_of(line).ok_or_else(|| {
            format!(
                "line {} begins with no number from 0 to {MAX_MACHINE}",
                at + 1
            )
        })?;
        if !machines.insert(machine) {
            return Err(format!("machine {machine} stands in it twice"));
        }
    }
    if ended {
        Ok(machines)
    } else {
        Err("its last line is not 'end', so it may have been cut".to_owned())
    }
}

fn without_margins(mut line: &[u8]) -> &[u8] {
    while let [b' ' | b'\r', rest @ ..] | [rest @ .., b' ' | b'\r'] = line {
        line = rest;
    }
    line
}

fn machine_of(line: &[u8]) -> Option<u8> {
    let word = line.split(|&byte| byte == b' ').next()?;
    let number = number(std::str::from_utf8(word).ok()?)?;
    let machine = u8::try_from(number).ok()?;
    (machine <= MAX_MACHINE).then_some(machine)
}

#[cfg(test)]
mod tests {
    use super::*;

    #[test]
    fn lists() {
        for (list, expected) in [
            ("end", &[][..]),
            ("end\n", &[]),
            ("# x\n0 herbarium\n1 library\nend\n", &[0, 1]),
            ("\r\n  63 \r\n\n 7  last  \r\n end \r\n", &[7, 63]),
            ("0\nend\n\n  \n# no machine\n", &[0]),
        ] {
            let machines = read(list.as_bytes()).expect("the list is whole");
            assert!(machines.iter().eq(expected), "{list:?}");
        }
        let machines = BTreeSet::from([3, 0, 63]);
        assert_eq!(read(write(&machines).as_bytes()), Ok(machines));
    }

    #[test]
    fn refused_lists() {
        for list in [
            "",
            "0\n",
            "0\nen",
            "0\nend\n1\n",
            "64\nend\n",
            "07\nend\n",
            "x\nend\n",
            "-1\nend\n",
            "0\n0 again\nend\n",
            "end of it\n",
            "\t0\nend\n",
            "0\tx\nend\n",
            "end\nend\n",
        ] {
            assert!(read(list.as_bytes()).is_err(), "{list:?}");
        }
        let most = format!("{}\nend", "#".repeat(MAX_LIST - 4));
        assert_eq!(read(most.as_bytes()), Ok(BTreeSet::new()));
        assert!(read(format!("{most}\n").as_bytes()).is_err());
    }
}

//! The original's error texts and 01's numbers for them.

#[derive(Debug, Clone, Copy, PartialEq, Eq)]
pub struct Fault {
    /// 01's number, 10 to 20.
    pub number: u32,
    /// The number that stands inside the text, if one does.
    told: Option<i64>,
}

/// How a text begins, how it ends, and 01's number. What stands between is a number or nothing.
const TEXTS: [(&str, &str, u32); 20] = [
    ("tracepoint '' needs ", " bytes of eBPF stack, maximum is 512", 10),
    ("LoadKey expects one operand", "", 11),
    ("Store expects pointer and value operands", "", 11),
    ("map lookup expects a key operand", "", 11),
    ("map update expects key and value operands", "", 11),
    ("NullCheck expects pointer operand", "", 11),
    ("ringbuf submit expects pointer operand", "", 11),
    ("CopyCtxToMem expects destination operand", "", 11),
    ("binary instruction expects two operands", "", 11),
    ("helper ", " expects no operands", 11),
    ("helper ", " expects dest, size, src operands", 11),
    ("immediate ", " does not fit in eBPF imm32", 12),
    ("offset ", " does not fit in eBPF off16", 13),
    ("unsupported load size: ", "", 14),
    ("unsupported store size: ", "", 15),
    (GET_CURRENT_COMM, "", 16),
    ("unsupported helper id ", "", 17),
    ("invalid jump target block ", "", 18),
    ("jump to block ", " exceeds eBPF range", 19),
    ("missing stack slot for v", "", 20),
];

const GET_CURRENT_COMM: &str =
    "ctx.get_current_comm requires a destination buffer; IR does not carry one yet";

impl Fault {
    pub fn of(text: &str) -> Fault {
        let fits = |&(begin, end, number): &(&str, &str, u32)| {
            let between = text.strip_prefix(begin)?.strip_suffix(end)?;
            if between.is_empty() {
                return Some(Fault { number, told: None });
            }
            between.parse().ok().map(|told| Fault { number, told: Some(told) })
        };
        let mut fitting = TEXTS.iter().filter_map(fits);
        let fault = fitting.next().unwrap_or_else(|| panic!("a text of no known form: {text}"));
        assert!(fitting.next().is_none(), "a text of two forms: {text}");
        fault.with_helper_16()
    }

    /// The value where the text holds it.
    pub fn told(&self) -> i64 {
        self.told.expect("this text holds a number")
    }

    /// Refusal 16 is about one helper, so its text need not say which.
    fn with_helper_16(self) -> Fault {
        match self.number {
            16 => Fault { told: Some(16), ..self },
            _ => self,
        }
    }
}

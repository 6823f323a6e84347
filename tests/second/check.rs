// One ask checked in every way, and a difference found with the kind that it is of.

use crate::ask::*;
use crate::changed::changed_list;
use crate::definitions;
use crate::library;
use crate::random::{mix, Random};
use crate::routes::Method;

/// Lists of up to so many of the asker's rows are checked by all routes too.
const FEW_ROWS: usize = 8;

#[derive(Clone, Copy, PartialEq)]
pub enum Kind {
    /// The library against the definitions.
    Library,
    /// The fixpoint against all routes.
    Methods,
    /// The library against itself, over a list with changed foreign rows.
    Changed,
}

/// An ask with a difference; `changed` is the other list of the kind `Changed`.
#[derive(Clone)]
pub struct Finding {
    pub kind: Kind,
    pub ask: Ask,
    pub changed: Vec<u32>,
}

pub struct Checked {
    pub reply: Reply,
    pub all_routes: bool,
    pub changed: bool,
}

fn fixpoint(ask: &Ask) -> Outcome {
    definitions::outcome(ask, Method::Fixpoint(mix(ask.junk)))
}

fn over_list(ask: &Ask, list: &[u32]) -> Ask {
    let list = list.to_vec();
    Ask {
        list,
        ..ask.clone()
    }
}

impl Finding {
    /// What was expected and what came.
    pub fn outcomes(&self) -> (Outcome, Outcome) {
        let ask = &self.ask;
        match self.kind {
            Kind::Library => (fixpoint(ask), library::outcome(ask)),
            Kind::Methods => (definitions::outcome(ask, Method::AllRoutes), fixpoint(ask)),
            Kind::Changed => (
                library::outcome(ask),
                library::outcome(&over_list(ask, &self.changed)),
            ),
        }
    }

    pub fn differs(&self) -> bool {
        if !self.may_be_asked() {
            return false;
        }
        let (expected, came) = self.outcomes();
        expected != came
    }

    /// Whether the two lists promise the same outcome, and all routes are few.
    fn may_be_asked(&self) -> bool {
        let own = self.ask.own_rows();
        match self.kind {
            Kind::Library => true,
            Kind::Methods => own.len() <= FEW_ROWS,
            Kind::Changed => {
                let other = over_list(&self.ask, &self.changed);
                let rest = |ask: &Ask| ask.list.len() % ROW;
                let many = |ask: &Ask| ask.list.len() / ROW > MOST_ROWS;
                own == other.own_rows()
                    && rest(&self.ask) == rest(&other)
                    && many(&self.ask) == many(&other)
            }
        }
    }
}

/// All checks of one ask; a difference is handed back as the error.
pub fn check(ask: &Ask, random: &mut Random) -> Result<Checked, Box<Finding>> {
    let finding = |kind, changed| {
        let ask = ask.clone();
        Box::new(Finding { kind, ask, changed })
    };
    let came = library::outcome(ask);
    let expected = fixpoint(ask);
    if came != expected {
        return Err(finding(Kind::Library, Vec::new()));
    }
    let office = ask.call == Call::OfficeCheck;
    let few = ask.own_rows().len() <= FEW_ROWS;
    let all_routes = !office && few && came.reply[0] != REFUSED;
    if all_routes && definitions::outcome(ask, Method::AllRoutes) != expected {
        return Err(finding(Kind::Methods, Vec::new()));
    }
    if !office {
        let changed = changed_list(ask, random);
        if library::outcome(&over_list(ask, &changed)) != came {
            return Err(finding(Kind::Changed, changed));
        }
    }
    Ok(Checked {
        reply: came.reply,
        all_routes,
        changed: !office,
    })
}

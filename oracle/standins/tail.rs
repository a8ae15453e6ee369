// tail: not types.rs. Shows the private parts of an analysis.
fn found_cell(mask: u16, width: Width, flow: &Flow) -> crate::found::Cell {
    crate::found::Cell {
        mask,
        width,
        extents: flow.bodies.map(|extent| match extent {
            BodyExtent::Absent => (0, 0, 0),
            BodyExtent::Range { min, max } => (1, min, max),
            BodyExtent::Unknown => (2, 0, 0),
        }),
        owned: flow.owned,
        origin: flow.origin,
        predicate: flow.predicate.map(|p| (p.receiver, p.when)),
    }
}
fn found_cells(masks: &[u16], widths: &[Width], flows: &[Flow]) -> Vec<crate::found::Cell> {
    assert!(masks.len() == widths.len() && masks.len() == flows.len());
    (0..masks.len())
        .map(|i| found_cell(masks[i], widths[i], &flows[i]))
        .collect()
}
fn found_fact(fact: &ValueFact) -> crate::found::Cell {
    found_cell(fact.tag, fact.width, &fact.flow)
}
impl Analysis {
    pub(super) fn found(&self) -> crate::found::Found {
        crate::found::Found {
            reply_maximum: self.reply_body_maximum,
            inputs: self
                .inputs
                .iter()
                .map(|all| all.iter().map(found_fact).collect())
                .collect(),
            results: self.results.iter().map(found_fact).collect(),
            private: self
                .private_bodies
                .iter()
                .map(|flow| found_cell(0, Width::Unknown, flow))
                .collect(),
            records: self
                .facts
                .iter()
                .enumerate()
                .flat_map(|(chunk, all)| all.iter().map(move |(ip, facts)| (chunk, *ip, facts)))
                .map(|(chunk, instruction, facts)| crate::found::Record {
                    chunk,
                    instruction,
                    stack: found_cells(&facts.stack, &facts.extents.stack, &facts.flow_stack),
                    locals: found_cells(&facts.locals, &facts.extents.locals, &facts.flow_locals),
                    outputs: facts
                        .outputs
                        .iter()
                        .map(|o| (o.slot, found_cell(o.tag, o.width, &o.flow)))
                        .collect(),
                    guards: facts.guards.iter().map(|(at, mask)| (*at, *mask)).collect(),
                })
                .collect(),
            inspections: self.false_inspections.iter().copied().collect(),
            branches: self
                .branches
                .iter()
                .enumerate()
                .flat_map(|(chunk, all)| all.iter().map(move |(ip, value)| (chunk, *ip, *value)))
                .collect(),
        }
    }
}

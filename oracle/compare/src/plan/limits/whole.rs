//! Counts, sums over pieces, and all that is not read.

use super::Cases;
use crate::call::Call;
use crate::chosen::NOT_FINITE;
use crate::judge::{BAD_WORD, DONE, NO_EXTENT, NO_MATERIAL, NO_ROOM, PLANE};
use crate::plan::layout::*;
use crate::plan::model::{cutters_of, used, Plan};
use crate::plan::sound;

/// A count may be at its limit; one above it, all calls refuse.
pub fn counts(cases: &mut Cases) -> Result<(), String> {
    // Without cutters a record of zeros is a sound object: a sphere of radius 0.
    let plan = Plan { materials: vec![sound::material(); 3], ..Plan::default() };
    cases.plan(&plan);
    for list in List::ALL {
        let most = list.section().records as u32;
        for more in [1, 2, most, 0x100, 0x1_0000, 1 << 31, u32::MAX - most] {
            cases.with_plan(None, list as usize, most + more, NO_ROOM)?;
        }
        cases.every_call(&[(list as usize, most)], |call| {
            match list {
                _ if call.enters() == Some(list) => NO_ROOM,
                // Among planes such a record is at place 0, where 1,024 must stand.
                List::Planes if call.tests().contains(&list) => NO_ROOM,
                // All corners of such a light are one.
                List::Lights if call.tests().contains(&list) => NO_EXTENT,
                _ => DONE,
            }
        })?;
    }
    // No materials: every piece names one that is not there.
    cases.plan(&Plan { materials: Vec::new(), ..sound::plan() });
    cases.every_call(&[], |call| if call.tests().is_empty() { DONE } else { NO_MATERIAL })?;
    cases.plan(&sound::plan());
    Ok(())
}

/// The sum is over the tested pieces: 1,024 cutters of objects and one of a plane are too many
/// for the calls that test both.
pub fn sums(cases: &mut Cases) -> Result<(), String> {
    let plan = Plan {
        materials: vec![sound::material(); 3],
        planes: vec![sound::piece(PLANE, &[])],
        objects: vec![sound::piece(0, &[0; MOST_CUTTERS]); 128],
        ..Plan::default()
    };
    for of_plane in [0, 1] {
        let mut table = plan.table();
        table[PLANES.first + CUTS] = of_plane;
        table[PLANES.first + PLACE] = 1_024 - of_plane;
        cases.base.plan.put(0, &table);
        for call in Call::on_plans() {
            let mut args = sound::args(call);
            if call.args_words() == ROW {
                args[CUTS] = 0;
            }
            cases.args(&args);
            let (tested, both) = (!call.tests().is_empty(), call.tests().contains(&List::Planes));
            let number = if both && of_plane == 1 { NO_ROOM } else { DONE };
            cases.hold(call, &[], &[], number)?;
            // Where they are too many no cutter's words are judged, else the last one's are too.
            let judged = tested && number == DONE;
            let number = if judged { BAD_WORD } else { number };
            cases.hold(call, &[], &[(CUTTERS.at(1_023), 7)], number)?;
        }
    }
    // As many again, in right places past the end of the cutters.
    let mut table = plan.table();
    table[List::Objects as usize] = 256;
    for i in 128..256 {
        table.copy_within(OBJECTS.at(0)..OBJECTS.at(1), OBJECTS.at(i));
        table[OBJECTS.at(i) + PLACE] = 8 * i as u32;
    }
    cases.base.plan.put(0, &table);
    cases.every_call(&[], |call| if call.tests().is_empty() { DONE } else { NO_ROOM })?;
    cases.plan(&sound::plan());
    Ok(())
}

/// Spare words, records past the counts, cutters in no use and materials: no call reads them, and an
/// entry leaves them, but for the records that it writes.
pub fn never_read(cases: &mut Cases) -> Result<(), String> {
    let plan = sound::plan();
    let table = plan.table();
    let mut places: Vec<usize> = (4..COUNTS.words).collect();
    for section in [MATERIALS, LIGHTS] {
        for record in [0, 1, 2, 3, section.records - 1] {
            // The one light there is has words that are read.
            let read = if section.first == LIGHTS.first && record == 0 { LIGHT_WORDS } else { 0 };
            places.extend(section.at(record) + read..section.at(record + 1));
        }
    }
    for (section, pieces) in [(PLANES, &plan.planes), (OBJECTS, &plan.objects)] {
        for (record, piece) in pieces.iter().enumerate() {
            let at = section.at(record);
            places.extend(at + SHAPE + used(piece.prim.kind)..at + PLACE);
            places.extend(at + PLACE + 1..at + ROW);
        }
        for record in [pieces.len(), pieces.len() + 1, section.records - 1] {
            places.extend(section.at(record)..section.at(record + 1));
        }
    }
    let bottom = cutters_of(&plan.objects);
    let top = CUTTERS.records - cutters_of(&plan.planes);
    for record in (0..bottom).chain(top..CUTTERS.records) {
        let at = CUTTERS.at(record);
        places.extend(at + 1 + used(table[at])..at + ROW);
    }
    // An entry of ours writes the first two, or the last two.
    for record in [bottom, bottom + 1, bottom + 2, 500, top - 3, top - 2, top - 1] {
        places.extend(CUTTERS.at(record)..CUTTERS.at(record + 1));
    }
    for place in places {
        for word in [NOT_FINITE[3], 1] {
            cases.with_plan(None, place, word, DONE)?;
        }
    }
    Ok(())
}

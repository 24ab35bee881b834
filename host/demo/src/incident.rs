//! The incident: a guest that changes its page at the wrong moment, before a stand-in for an old worker
//! and before a host that goes by the library, each on a volume of its own. The guest does the same at
//! the same moments before all of them.

use crate::batch::{MOST_SECTORS, WRITE};
use crate::frames::FRAME_SECTORS;
use crate::lent::Way;
use crate::race::race;
use crate::scene::{start_at, Scene, Who, ABI};
use kernelharp::Pages;
use std::path::Path;

const BEGIN: &str = "\
The incident. Two boards have their disks on one volume: the first zone's is its sectors 0 to
2815, behind it is the second zone's, which begins with saved scores. \"Old worker\" is a stand-in,
made for this demo: it reads a slot twice, to check it and to carry it out, and answers the slot
that the page's rsp_prod names, as it is by then. The other two are hosts that go by the library.
1. The first zone rolls its day by 24 writes. When the first of them has been checked, the guest
   changes its start from 704 to 2816, one past its own disk:";
const SECOND: &str = "\
2. The guest puts 7 and 8. While they are carried out it puts 7 again, in the slot of 8:";

/// Tells both halves of it. An error is a check of the library's host that did not hold, or a stand-in
/// that does not show its faults.
pub fn show(folder: &Path, seed: u64, rounds: u64) -> Result<(), String> {
    println!("\n{BEGIN}");
    for who in Who::ALL {
        let mut scene = Scene::new(folder, "start", who, seed)?;
        println!("   {who:<15} {}", change_a_start(&mut scene, who)?);
    }
    let mut scene = Scene::new(folder, "race", Who::Ours(Way::Pages), seed)?;
    println!("{}", race(&mut scene, rounds)?);
    println!("{SECOND}");
    for who in Who::ALL {
        let mut scene = Scene::new(folder, "answers", who, seed)?;
        println!("   {who:<15} {}", use_a_slot_again(&mut scene, who)?);
    }
    Ok(())
}

/// The guest rolls its day, and changes the start of the first write between check and use.
fn change_a_start(scene: &mut Scene, who: Who) -> Result<String, String> {
    let (floor, end) = (
        scene.volume.first.profile.floor(),
        scene.volume.second.begin,
    );
    let day = scene.make(|batch| batch.add_range(WRITE, floor..end));
    scene.put(&day);
    let (ring, at) = (scene.ring, start_at(0));
    let (checked, used) = scene.serve(|| ring.store(at, end as u32))?;
    for _ in 1..day.len() {
        scene.serve(|| ())?;
    }
    for _ in &day {
        scene.server.answer()?;
    }
    let answered = scene.collect().len();
    let copies = scene.volume.copies_of_first(end, floor, MOST_SECTORS);
    let copies = copies.map_err(|fault| fault.to_string())?;
    let [own, others] = scene.lost()?;
    let told = format!("checked {checked}, wrote at {used}");
    let all = MOST_SECTORS as usize;
    let sound = (checked, answered) == (floor, day.len());
    match who {
        Who::Old if sound && (used, copies, own, others) == (end, all, all, all) => Ok(format!(
            "{told}: its day is now on {copies} sectors of saved scores"
        )),
        Who::Ours(_) if sound && (used, copies, own, others) == (floor, 0, 0, 0) => Ok(format!(
            "{told}; every byte of the other's disk is as it was"
        )),
        _ => Err(format!("{who}: {told}; {own} and {others} sectors lost")),
    }
}

/// The guest puts two requests, and before they are answered the first once more, in the second's slot.
fn use_a_slot_again(scene: &mut Scene, who: Who) -> Result<String, String> {
    let (floor, whole) = (scene.volume.first.profile.floor(), FRAME_SECTORS as u64);
    let jobs = scene.make(|batch| {
        batch.add_range(WRITE, floor..floor + whole);
        batch.add_range(WRITE, floor + whole..floor + 2 * whole);
    });
    scene.put(&jobs);
    for _ in &jobs {
        scene.serve(|| ())?;
    }
    let again = jobs[0].wish.plain().slot(ABI);
    scene.ring.write(ABI.slot_at(Pages::One, 1), &again);
    for _ in &jobs {
        scene.server.answer()?;
    }
    let (ids, answered) = ([jobs[0].wish.id, jobs[1].wish.id], scene.collect());
    let [seven, eight] = ids;
    match who {
        Who::Old if answered == [seven; 2] => {
            Ok(format!("answered {seven} and {seven}; {eight} never"))
        }
        Who::Ours(_) if answered == ids && scene.lost()? == [0; 2] => {
            Ok(format!("answered {seven} and {eight}, each once"))
        }
        _ => Err(format!("{who}: of {ids:?} it answered {answered:?}")),
    }
}

#[cfg(test)]
mod tests {
    use super::*;
    use crate::Folder;

    const OURS: Who = Who::Ours(Way::Copies);

    /// A story with who serves, told as if another did.
    type Story = fn(&mut Scene, Who) -> Result<String, String>;

    fn tell(part: &str, story: Story, who: Who, as_if: Who) -> Result<String, String> {
        let folder = Folder::new(part).unwrap();
        story(&mut Scene::new(&folder.0, part, who, 1).unwrap(), as_if)
    }

    #[test]
    fn a_host_that_reads_a_slot_twice_is_found() {
        let fault = tell("twice", change_a_start, Who::Old, OURS).unwrap_err();
        let due = "private copies: checked 704, wrote at 2816; 88 and 88 sectors lost";
        assert_eq!(fault, due);
        let fault = tell("id", use_a_slot_again, Who::Old, OURS).unwrap_err();
        assert_eq!(fault, "private copies: of [7, 8] it answered [7, 7]");
    }

    #[test]
    fn a_stand_in_without_its_faults_is_found() {
        let fault = tell("sound", change_a_start, OURS, Who::Old).unwrap_err();
        let due = "old worker: checked 704, wrote at 704; 0 and 0 sectors lost";
        assert_eq!(fault, due);
        let fault = tell("ids", use_a_slot_again, OURS, Who::Old).unwrap_err();
        assert_eq!(fault, "old worker: of [7, 8] it answered [7, 8]");
    }
}

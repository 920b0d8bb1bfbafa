//! Jobs: several edits as one, all of them or none.

use crate::changes::*;
use crate::edit::{Command, named};
use crate::layout::*;
use crate::map::Map;
use crate::messages::Messages;
use crate::stack::Lent;
use crate::{stack, sys};

/// The most words that a job wants of each list.
const JOB_LISTS: [usize; 4] = [
    MAX_JOB_CREATED * PAIR_WORDS,
    MAX_MODIFIED * PAIR_WORDS,
    MAX_JOB_DELETED * PAIR_WORDS,
    MAX_JOB_WARNINGS * WARNING_WORDS,
];

impl Map {
    /// Makes up to [`MAX_EDITS`] commands as one job, each on the map that the last one left: either all, or the map stays as it was.
    ///
    /// The change set is the net one: what is created is in the map after the last command and not in the one before the first, what is deleted
    /// the other way round, and what is modified is in both and some command lists it. What one command creates and another deletes is in no list. The
    /// warnings of all commands follow one another.
    ///
    /// ```
    /// use voldrekka::{text::Document, Command, JobRefused, LaneId};
    ///
    /// let yard = "voldrekka 1
    /// boundary 101 line=0,2;10,2
    /// boundary 102 line=0,-2;10,-2
    /// lane 1 left=101 right=102 successors=2
    /// lane 2 left=101 right=102
    /// ";
    /// let mut map = Document::read(yard)?.map;
    /// let part = Command::DisconnectLanes { from: LaneId(1), to: LaneId(2) };
    /// let remove = |lane| Command::RemoveLane { lane: LaneId(lane) };
    ///
    /// // The third command is refused, and none is made.
    /// let refused = map.job(&[part, remove(2), remove(7)]).unwrap_err();
    /// assert_eq!(refused.to_string(), "edit 3: lane:7 does not exist");
    /// assert_eq!(map.lane(LaneId(1)).unwrap().successors, [LaneId(2)]);
    ///
    /// let changes = map.job(&[part, remove(2)])?;
    /// assert_eq!(changes.deleted, [LaneId(2).into()]);
    /// assert_eq!(changes.modified, [LaneId(1).into()]);
    /// # Ok::<(), Box<dyn std::error::Error>>(())
    /// ```
    pub fn job(&mut self, commands: &[Command]) -> Result<ChangeSet, JobRefused> {
        let counter = self.lent.counter;
        let (area, answer) = self.job_answer(commands);
        match answer.number {
            MADE => {
                let mut changes = self.lent.changes([answer.created, answer.modified, answer.deleted, answer.warnings]);
                if !changes.warnings.is_empty() {
                    let before = Map { lent: Lent { counter, tables: area, ..Lent::default() } };
                    before.tell(commands, &mut changes.warnings);
                }
                Ok(changes)
            }
            EDIT_REFUSED => Err(self.refused_edit(commands, &answer)),
            TOO_MANY_EDITS => Err(JobRefused::TooManyEdits),
            NO_ROOM => Err(JobRefused::NoRoom),
            _ => Err(JobRefused::Unsound),
        }
    }

    /// The library's answer, and the second area, which holds the old map. Where what is lent is too small, it grows; 10 is left for a limit.
    fn job_answer(&mut self, commands: &[Command]) -> (crate::tables::Tables, sys::JobAnswer) {
        let mut rows: Vec<u64> = commands.iter().flat_map(|command| command.row()).collect();
        loop {
            let area = self.lent.tables.clone();
            let lent = std::mem::take(&mut self.lent);
            let (lent, sent, area, answer) = stack::job(lent, rows, area);
            (self.lent, rows) = (lent, sent);
            let wants = answer.number == NO_ROOM || answer.own == NO_ROOM;
            if !wants || !self.grow(JOB_LISTS) {
                return (area, answer);
            }
        }
    }

    /// Gives the warnings of a made job their messages: those of its commands, made once more one by one on the map before them.
    fn tell(mut self, commands: &[Command], warnings: &mut Vec<Issue>) {
        let mut told = Vec::new();
        for command in commands {
            told.extend(self.call(command).expect("an edit of a made job is made").changes.warnings);
        }
        let same = |(a, b): (&Issue, &Issue)| (a.code, a.entity, &a.related) == (b.code, b.entity, &b.related);
        assert!(told.len() == warnings.len() && told.iter().zip(&*warnings).all(same), "a made job warns as its edits");
        *warnings = told;
    }

    /// The refused command of a job with its message, for which those before it are made on a copy.
    fn refused_edit(&self, commands: &[Command], answer: &sys::JobAnswer) -> JobRefused {
        let place = answer.place as usize;
        let mut map = self.clone();
        for command in &commands[..place - 1] {
            map.call(command).expect("an edit before the refused one is made");
        }
        let refusal = Refusal { number: answer.own, entity: named(answer.kind, answer.id) };
        let error = Messages::before(&map, &commands[place - 1]).refusal(&map, refusal);
        JobRefused::Edit { place, refused: Refused { refusal, error } }
    }
}

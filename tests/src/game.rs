//! Parity games, solved by Zielonka's recursion. Of the priorities that come up for ever the least decides:
//! if it is even the player Even wins, else the player Odd.

use std::collections::VecDeque;

#[derive(Clone, Copy, Debug, PartialEq, Eq)]
pub enum Player {
    Even,
    Odd,
}

impl Player {
    fn other(self) -> Player {
        match self {
            Player::Even => Player::Odd,
            Player::Odd => Player::Even,
        }
    }
}

/// Two positions are there from the start: one that Even wins and one that Odd wins.
pub struct Game {
    owner: Vec<Player>,
    priority: Vec<usize>,
    moves: Vec<Vec<usize>>,
    before: Vec<Vec<usize>>,
}

/// A larger priority than any binder's: it never decides.
pub const NEUTRAL: usize = 1_000;

const WON: usize = 0;
const LOST: usize = 1;

impl Game {
    /// A game with `count` positions of its own, numbered from 0.
    pub fn new(count: usize) -> Game {
        let mut game = Game {
            owner: vec![Player::Even; count + 2],
            priority: vec![NEUTRAL; count + 2],
            moves: vec![Vec::new(); count + 2],
            before: vec![Vec::new(); count + 2],
        };
        game.priority[WON] = 0;
        game.priority[LOST] = 1;
        game.connect(WON, WON);
        game.connect(LOST, LOST);
        game
    }

    fn connect(&mut self, from: usize, to: usize) {
        self.moves[from].push(to);
        self.before[to].push(from);
    }

    /// Says who moves at a position, its priority and where to. A player who cannot move loses.
    pub fn set(&mut self, at: usize, owner: Player, priority: usize, to: &[usize]) {
        let at = at + 2;
        self.owner[at] = owner;
        self.priority[at] = priority;
        let mut different = to.to_vec();
        different.sort_unstable();
        different.dedup();
        for next in different {
            self.connect(at, next + 2);
        }
        if to.is_empty() {
            self.connect(at, if owner == Player::Odd { WON } else { LOST });
        }
    }

    /// For each position: does Even win from it?
    pub fn won_by_even(&self) -> Vec<bool> {
        let winner = self.solve(vec![true; self.owner.len()]);
        winner[2..].iter().map(|&w| w == Some(Player::Even)).collect()
    }

    /// The winner at each position of a part of the game that no player is forced to leave.
    fn solve(&self, mut alive: Vec<bool>) -> Vec<Option<Player>> {
        let mut winner = vec![None; alive.len()];
        loop {
            let inside: Vec<usize> = (0..alive.len()).filter(|&x| alive[x]).collect();
            let Some(least) = inside.iter().map(|&x| self.priority[x]).min() else { return winner };
            let lucky = if least % 2 == 0 { Player::Even } else { Player::Odd };
            let top = inside.iter().copied().filter(|&x| self.priority[x] == least).collect();
            let pulled = self.attracted(lucky, top, &alive);
            let rest = (0..alive.len()).map(|x| alive[x] && !pulled[x]).collect();
            let below = self.solve(rest);
            let lost: Vec<usize> = inside.iter().copied().filter(|&x| below[x] == Some(lucky.other())).collect();
            if lost.is_empty() {
                for x in inside {
                    winner[x] = Some(lucky);
                }
                return winner;
            }
            let pulled = self.attracted(lucky.other(), lost, &alive);
            for x in inside.into_iter().filter(|&x| pulled[x]) {
                winner[x] = Some(lucky.other());
                alive[x] = false;
            }
        }
    }

    /// The positions from which a player can force a visit to the goal.
    fn attracted(&self, player: Player, goal: Vec<usize>, alive: &[bool]) -> Vec<bool> {
        let mut inside = vec![false; alive.len()];
        for &x in &goal {
            inside[x] = true;
        }
        let mut queue = VecDeque::from(goal);
        while let Some(x) = queue.pop_front() {
            for &y in &self.before[x] {
                let pulled = self.owner[y] == player || self.moves[y].iter().all(|&z| !alive[z] || inside[z]);
                if alive[y] && !inside[y] && pulled {
                    inside[y] = true;
                    queue.push_back(y);
                }
            }
        }
        inside
    }
}

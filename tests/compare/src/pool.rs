//! Answers to be recorded: those that requests of other suites are given.

use crate::bytes;
use cases::{Random, Request, World, SUITES};
use interface::ANSWER_SIZE;
use reference::{interrupt_request, memory_request};

/// Worlds of each suite whose answers are taken.
const WORLDS: u64 = 1000;

/// Answers, faults the most of them.
pub struct Pool {
    faults: Vec<[u8; ANSWER_SIZE]>,
    others: Vec<[u8; ANSWER_SIZE]>,
}

impl Pool {
    /// The answers of some suites' first worlds, each over the image as the world has it.
    pub fn new() -> Self {
        let mut world = World::new();
        let mut pool = Self {
            faults: Vec::new(),
            others: Vec::new(),
        };
        let suites = ["walks", "interrupts", "both"];
        for suite in SUITES.iter().filter(|suite| suites.contains(&suite.name)) {
            for number in 0..WORLDS.min(suite.worlds) {
                (suite.build)(number, &mut world);
                pool.take(&mut world);
            }
        }
        pool
    }

    fn take(&mut self, world: &mut World) {
        let registers = &world.registers;
        for request in &world.requests {
            let outcome = match *request {
                Request::Memory {
                    source,
                    address,
                    write,
                } => memory_request(registers, &world.image, source, address, write),
                Request::Interrupt {
                    source,
                    address,
                    data,
                } => interrupt_request(registers, &mut world.image, source, address, data),
            };
            let answer = bytes::answer(&outcome);
            if answer[0] == 1 {
                self.faults.push(answer);
            } else {
                self.others.push(answer);
            }
        }
    }

    /// One of them.
    pub fn pick(&self, random: &mut Random) -> [u8; ANSWER_SIZE] {
        if random.one_in(12) {
            random.pick(&self.others)
        } else {
            random.pick(&self.faults)
        }
    }
}

//! The frames of compiled functions, read from a listing of their instructions, and the deepest way through the calls between them.

use std::collections::{BTreeMap, HashMap};
use std::fmt;

/// What the public calls' names begin with.
const PUBLIC: &str = "florumeja_";

/// A return address.
const ADDRESS: usize = 8;

/// The functions that call themselves, with how many of their frames there are at most: one for each group of a number and one more that finds
/// none left; one for each decimal digit of a word.
const NESTED: [(&str, usize); 2] = [("number::groups_at", 4), ("decimal::put_word", 20)];

/// A compiled function. Its own return address counts as a part of its frame.
#[derive(Default)]
struct Function {
    frame: usize,
    /// The functions that it calls, each with what its own frame has then.
    calls: Vec<(usize, String)>,
}

/// A function on the deepest way, with the bytes of its frame there.
#[derive(Clone)]
pub struct Step {
    name: String,
    pub bytes: usize,
}

impl fmt::Display for Step {
    fn fmt(&self, out: &mut fmt::Formatter) -> fmt::Result {
        write!(out, "{} {}", self.name, self.bytes)
    }
}

pub struct Frames {
    functions: BTreeMap<String, Function>,
}

impl Frames {
    pub fn read(listing: &str) -> Result<Frames, String> {
        let mut functions = BTreeMap::new();
        for block in listing.split("\n\n") {
            if let Some((name, code)) = named(block) {
                let function =
                    Function::read(name, code).map_err(|fault| format!("{name}: {fault}"))?;
                functions.insert(name.to_string(), function);
            }
        }
        Ok(Frames { functions })
    }

    pub fn exported(&self) -> impl Iterator<Item = &str> {
        let names = self.functions.keys().map(String::as_str);
        names.filter(|name| name.starts_with(PUBLIC))
    }

    /// The functions that stand on each other where the stack is deepest. A function of the C library counts with its return address alone.
    pub fn deepest_way(&self, name: &str) -> Result<Vec<Step>, String> {
        self.way(name, &mut HashMap::new())
    }

    fn way(
        &self,
        name: &str,
        known: &mut HashMap<String, Option<Vec<Step>>>,
    ) -> Result<Vec<Step>, String> {
        match known.get(name) {
            Some(Some(way)) => return Ok(way.clone()),
            Some(None) => return Err(format!("{name} is called again from within")),
            None => known.insert(name.to_string(), None),
        };
        let step = |bytes| Step {
            name: name.to_string(),
            bytes,
        };
        let library = Function {
            frame: ADDRESS,
            calls: Vec::new(),
        };
        let function = self.functions.get(name).unwrap_or(&library);
        let outer = outer_frames(name, function)?;
        let mut deepest = vec![step(outer + function.frame)];
        for (bytes, callee) in &function.calls {
            if callee != name {
                let mut way = vec![step(outer + bytes)];
                way.extend(self.way(callee, known)?);
                if total(&way) > total(&deepest) {
                    deepest = way;
                }
            }
        }
        known.insert(name.to_string(), Some(deepest.clone()));
        Ok(deepest)
    }
}

fn total(way: &[Step]) -> usize {
    way.iter().map(|step| step.bytes).sum()
}

/// How many bytes a function that calls itself has in its frames but the last one.
fn outer_frames(name: &str, function: &Function) -> Result<usize, String> {
    let own = function.calls.iter().filter(|(_, callee)| callee == name);
    let Some(outer) = own.map(|(bytes, _)| bytes).max() else {
        return Ok(0);
    };
    let nested = NESTED.iter().find(|(nested, _)| *nested == name);
    let (_, frames) = nested.ok_or_else(|| format!("{name} calls itself without a known end"))?;
    Ok((frames - 1) * outer)
}

/// A function's name and its lines.
fn named(block: &str) -> Option<(&str, &str)> {
    let block = block.trim_start_matches('\n');
    let (head, code) = block.split_once('\n')?;
    let name = head.strip_suffix(">:")?.split_once('<')?.1;
    Some((name, code))
}

struct Instruction<'a> {
    address: &'a str,
    name: &'a str,
    operands: &'a str,
    /// What the linker puts there: a function, or a table of numbers.
    named: Option<&'a str>,
}

fn instructions(code: &str) -> Vec<Instruction<'_>> {
    let mut read: Vec<Instruction> = Vec::new();
    for line in code.lines() {
        if let Some((_, place)) = line.split_once("R_X86_64_") {
            if let (Some(last), Some((_, name))) = (read.last_mut(), place.split_once('\t')) {
                last.named = Some(plain_name(name));
            }
        } else if let Some((address, text)) = line.split_once(":\t") {
            let (name, operands) = text.split_once(' ').unwrap_or((text, ""));
            read.push(Instruction {
                address: address.trim(),
                name,
                operands: operands.trim(),
                named: None,
            });
        }
    }
    read
}

fn plain_name(place: &str) -> &str {
    let name = place.strip_prefix(".text.").unwrap_or(place);
    name.rsplit_once("-0x").map_or(name, |(name, _)| name)
}

/// Where the jumps through a table lead: to all that is not reached otherwise.
const TABLE: &str = "*";

impl Function {
    /// Walks over the instructions until it is known how deep the stack is wherever a jump leads.
    fn read(name: &str, code: &str) -> Result<Function, String> {
        let code = instructions(code);
        let first = code
            .first()
            .map(|instruction| (instruction.address, ADDRESS));
        let mut depth_at: HashMap<&str, usize> = first.into_iter().collect();
        loop {
            let known = depth_at.len();
            let function = Function::walk(name, &code, &mut depth_at)?;
            if depth_at.len() == known {
                return Ok(function);
            }
        }
    }

    fn walk<'a>(
        name: &str,
        code: &[Instruction<'a>],
        depth_at: &mut HashMap<&'a str, usize>,
    ) -> Result<Function, String> {
        let mut function = Function::default();
        let mut reached = None;
        // A large frame is touched page by page, in a loop down to the address in r11.
        let mut in_pages = false;
        for instruction in code {
            let Some(mut depth) = depth_at.get(instruction.address).copied().or(reached) else {
                continue;
            };
            let (kind, operands) = (instruction.name, instruction.operands);
            match (kind, operands.rsplit_once(',')) {
                ("push", _) => depth += ADDRESS,
                ("pop", _) => depth -= ADDRESS,
                ("mov", Some(("%rsp", "%r11"))) => in_pages = true,
                ("sub", Some((bytes, "%r11"))) if in_pages => depth += number(bytes)?,
                ("cmp", Some(("%r11", "%rsp"))) => in_pages = false,
                ("sub", Some((_, "%rsp"))) if in_pages => (),
                ("sub", Some((bytes, "%rsp"))) => depth = depth.wrapping_add(number(bytes)?),
                ("add", Some((bytes, "%rsp"))) => depth = depth.wrapping_sub(number(bytes)?),
                (_, Some((_, "%rsp"))) => return Err(format!("{kind} {operands} moves the stack")),
                ("call", _) if instruction.named.is_none() && operands.starts_with(TABLE) => {
                    return Err(format!("{kind} {operands} calls what is not named"))
                }
                ("call", _) => function.calls(depth, instruction.named.unwrap_or(name)),
                _ if kind.starts_with('j') => match instruction.named {
                    // The frame is gone, and the callee returns to the caller.
                    Some(callee) if depth == ADDRESS => function.calls(0, callee),
                    Some(callee) => {
                        return Err(format!("a jump to {callee} from within the frame"))
                    }
                    None if operands.starts_with(TABLE) => {
                        depth_at.insert(TABLE, depth);
                    }
                    None => {
                        let target = operands.split(' ').next().unwrap_or_default();
                        depth_at.insert(target, depth);
                    }
                },
                _ => (),
            }
            function.frame = function.frame.max(depth + below(operands)?);
            let goes_on = !matches!(kind, "ret" | "jmp");
            reached = if goes_on {
                Some(depth)
            } else {
                depth_at.get(TABLE).copied()
            };
        }
        Ok(function)
    }

    fn calls(&mut self, bytes: usize, callee: &str) {
        self.calls.push((bytes, callee.to_string()));
    }
}

/// How far below the stack pointer an operand reaches: a function that calls none may keep values there.
fn below(operands: &str) -> Result<usize, String> {
    match operands.split_once("(%rsp") {
        Some((before, _)) => match before.rsplit_once("-0x") {
            Some((_, digits)) => hexadecimal(digits),
            None => Ok(0),
        },
        None => Ok(0),
    }
}

/// A number in an instruction. One that is subtracted may stand there as its complement, to be added.
fn number(operand: &str) -> Result<usize, String> {
    let digits = operand.strip_prefix("$0x");
    hexadecimal(digits.ok_or_else(|| format!("{operand} is no number"))?)
}

fn hexadecimal(digits: &str) -> Result<usize, String> {
    usize::from_str_radix(digits, 16).map_err(|fault| format!("{digits}: {fault}"))
}

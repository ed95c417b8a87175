//! The same walk in stock Rust: cursors into the tree, and the variables of all frames in one vector.

#[derive(Clone, Copy)]
enum BinOp {
    Add,
    Subtract,
    Remainder,
    Less,
    Greater,
}

enum Expr {
    Number(i64),
    Local(usize),
    Scalar(usize),
    Element(usize, Box<Expr>),
    Binary(BinOp, Box<Expr>, Box<Expr>),
}

enum Stmt {
    Let(usize, Expr),
    SetField(usize, Expr),
    SetElement(usize, Expr, Expr),
    If(Expr, Vec<Stmt>, Vec<Stmt>),
    While(Expr, Vec<Stmt>),
    Call(usize, Vec<Expr>, Option<usize>),
    Return(Expr),
}

/// Variables are numbered within their method: parameters, locals, the result, and the results of called methods.
struct Method {
    params: usize,
    vars: usize,
    body: Vec<Stmt>,
}

/// For a call: the place in the caller's frame at which the method leaves its result.
struct Program {
    methods: Vec<Method>,
    main: usize,
    result_at: Vec<Vec<Option<usize>>>,
}

#[derive(Clone, Copy)]
enum Task<'a> {
    Run(usize, &'a [Stmt]),
    Keep(usize, usize, usize),
}

#[derive(Clone, Copy)]
struct Frame {
    base: usize,
    method: usize,
    returns: Option<usize>,
}

struct Machine<'a> {
    tasks: Vec<Task<'a>>,
    frames: Vec<Frame>,
    values: Vec<i64>,
}

fn binary(op: BinOp, left: i64, right: i64) -> i64 {
    match op {
        BinOp::Add => left.wrapping_add(right),
        BinOp::Subtract => left.wrapping_sub(right),
        BinOp::Remainder => {
            if right == 0 {
                0
            } else {
                left.wrapping_rem(right)
            }
        }
        BinOp::Less => (left < right) as i64,
        BinOp::Greater => (left > right) as i64,
    }
}

fn element(store: &[Vec<i64>], field: usize, index: i64) -> i64 {
    match usize::try_from(index) {
        Ok(index) => store[field].get(index).copied().unwrap_or(0),
        Err(_) => 0,
    }
}

fn set_element(store: &mut [Vec<i64>], field: usize, index: i64, value: i64) {
    if let Ok(index) = usize::try_from(index)
        && let Some(place) = store[field].get_mut(index)
    {
        *place = value;
    }
}

impl<'a> Machine<'a> {
    fn value(&self, base: usize, store: &[Vec<i64>], expr: &Expr) -> i64 {
        match expr {
            Expr::Number(number) => *number,
            Expr::Local(place) => self.values[base + place],
            Expr::Scalar(field) => element(store, *field, 0),
            Expr::Element(field, index) => element(store, *field, self.value(base, store, index)),
            Expr::Binary(op, left, right) => {
                let left = self.value(base, store, left);
                let right = self.value(base, store, right);
                binary(*op, left, right)
            }
        }
    }

    fn push(&mut self, frame: usize, statements: &'a [Stmt]) {
        if !statements.is_empty() {
            self.tasks.push(Task::Run(frame, statements));
        }
    }

    fn give_back(&mut self) {
        let kept = match self.tasks.last() {
            None => 0,
            Some(Task::Run(frame, _) | Task::Keep(frame, _, _)) => frame + 1,
        };
        if kept < self.frames.len() {
            self.values.truncate(self.frames[kept].base);
            self.frames.truncate(kept);
        }
    }

    fn step(&mut self, program: &'a Program, store: &mut [Vec<i64>]) {
        match self.tasks.pop() {
            None => {}
            Some(Task::Keep(frame, into, result)) => {
                let base = self.frames[frame].base;
                self.values[base + into] = self.values[base + result];
            }
            Some(Task::Run(frame, statements)) => self.execute(program, store, frame, statements),
        }
    }

    fn execute(
        &mut self,
        program: &'a Program,
        store: &mut [Vec<i64>],
        frame: usize,
        statements: &'a [Stmt],
    ) {
        let base = self.frames[frame].base;
        let (first, rest) = statements.split_first().unwrap();
        match first {
            Stmt::Let(place, value) => {
                self.values[base + place] = self.value(base, store, value);
                self.push(frame, rest);
            }
            Stmt::SetField(field, value) => {
                let value = self.value(base, store, value);
                set_element(store, *field, 0, value);
                self.push(frame, rest);
            }
            Stmt::SetElement(field, index, value) => {
                let index = self.value(base, store, index);
                let value = self.value(base, store, value);
                set_element(store, *field, index, value);
                self.push(frame, rest);
            }
            Stmt::If(guard, first, second) => {
                self.push(frame, rest);
                let chosen = if self.value(base, store, guard) != 0 { first } else { second };
                self.push(frame, chosen);
            }
            Stmt::While(guard, body) => {
                if self.value(base, store, guard) != 0 {
                    self.tasks.push(Task::Run(frame, statements));
                    self.push(frame, body);
                } else {
                    self.push(frame, rest);
                }
            }
            Stmt::Call(method, args, into) => {
                self.call(program, store, frame, rest, *method, args, *into);
            }
            Stmt::Return(value) => {
                let value = self.value(base, store, value);
                if let Some(place) = self.frames[frame].returns {
                    self.values[place] = value;
                }
                self.push(frame, rest);
            }
        }
    }

    #[allow(clippy::too_many_arguments)]
    fn call(
        &mut self,
        program: &'a Program,
        store: &[Vec<i64>],
        frame: usize,
        rest: &'a [Stmt],
        method: usize,
        args: &[Expr],
        into: Option<usize>,
    ) {
        let caller = self.frames[frame];
        let called = &program.methods[method];
        let mut passed = Vec::with_capacity(args.len());
        for arg in args {
            passed.push(self.value(caller.base, store, arg));
        }
        self.push(frame, rest);
        let result = program.result_at[caller.method][method];
        if let (Some(into), Some(result)) = (into, result) {
            self.tasks.push(Task::Keep(frame, into, result));
        }
        self.give_back();
        let kept = self.frames.len();
        let base = self.values.len();
        self.values.resize(base + called.vars, 0);
        for (place, value) in passed.iter().enumerate().take(called.params) {
            self.values[base + place] = *value;
        }
        let returns = match result {
            Some(result) if frame < kept => Some(caller.base + result),
            _ => None,
        };
        self.frames.push(Frame {
            base,
            method,
            returns,
        });
        self.push(kept, &called.body);
    }
}

fn run(program: &Program, store: &mut [Vec<i64>], steps: u64) -> Option<u64> {
    let mut machine = Machine {
        tasks: Vec::new(),
        frames: vec![Frame {
            base: 0,
            method: program.main,
            returns: None,
        }],
        values: vec![0; program.methods[program.main].vars],
    };
    machine.push(0, &program.methods[program.main].body);
    for taken in 0..steps {
        if machine.tasks.is_empty() {
            return Some(taken);
        }
        machine.step(program, store);
    }
    machine.tasks.is_empty().then_some(steps)
}

fn joined(left: Expr, op: BinOp, right: Expr) -> Expr {
    Expr::Binary(op, Box::new(left), Box::new(right))
}

fn main() {
    use BinOp::*;
    use Expr::{Element, Local, Number};
    // add: parameters 0 and 1, local 2; its result is place 2 of main
    let add = Method {
        params: 2,
        vars: 3,
        body: vec![
            Stmt::Let(2, joined(Local(0), Add, Local(1))),
            Stmt::If(
                joined(Local(2), Greater, Number(1_000_000)),
                vec![Stmt::Let(2, joined(Local(2), Subtract, Number(1_000_000)))],
                vec![],
            ),
            Stmt::Return(Local(2)),
        ],
    };
    // main: locals i 0, x 1; place 2 for the result of add
    let main = Method {
        params: 0,
        vars: 3,
        body: vec![
            Stmt::While(
                joined(Local(0), Less, Number(1_200_000)),
                vec![
                    Stmt::Call(0, vec![Local(0), Local(1)], Some(1)),
                    Stmt::SetElement(
                        1,
                        joined(Local(0), Remainder, Number(8)),
                        joined(Local(1), Add, Element(1, Box::new(Number(0)))),
                    ),
                    Stmt::Let(0, joined(Local(0), Add, Number(1))),
                ],
            ),
            Stmt::SetField(0, joined(Local(1), Add, Expr::Scalar(0))),
        ],
    };
    let program = Program {
        methods: vec![add, main],
        main: 1,
        result_at: vec![vec![None, None], vec![Some(2), None]],
    };
    let mut store = vec![vec![0], vec![0; 8]];
    let taken = run(&program, &mut store, u64::MAX);
    println!("{:?} {}", taken, store[0][0]);
}

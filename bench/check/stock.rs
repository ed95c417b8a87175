//! The command `check` in stock Rust, to compare with: `stock check P H` puts the lines that `jifsplit check P H` puts.
//! Labels are 63 words and one, names of principals are looked up in a row, and each starting plan is counted over the
//! whole program, as in the crates. Of the host file it reads no more of TOML than a line for each key.

#[allow(dead_code)]
#[path = "../parse/parser.rs"]
mod parser;

use parser::{BinOp, Draft, ExprDraft, LabelDraft, MethodDraft, NameDraft, StmtDraft, StmtKindDraft};
use parser::{LexError, ParseError, What, lex, parse, parse_label};
use std::collections::HashMap;
use std::fmt::Write as _;
use std::io::Write as _;
use std::process::ExitCode;

/// Why there is no report: the status and the line.
struct Stop(u8, String);

fn program_stop(why: impl std::fmt::Display) -> Stop {
    Stop(3, format!("program: {why}"))
}

fn hosts_stop(why: impl std::fmt::Display) -> Stop {
    Stop(4, format!("hosts: {why}"))
}

// ---- principals and labels

const PRINCIPALS: usize = 63;

/// The bit of the reader who stands for everyone who is not declared.
const OUTSIDER: u64 = 1 << PRINCIPALS;

struct Principals {
    names: Vec<String>,
    /// For each principal a word with a bit for each whom it acts for.
    rows: [u64; PRINCIPALS],
}

impl Principals {
    fn new(names: Vec<String>) -> Principals {
        Principals { names, rows: std::array::from_fn(|place| 1 << place) }
    }

    fn add_pair(&mut self, first: usize, second: usize) {
        let reached = self.rows[second];
        for row in &mut self.rows {
            if *row >> first & 1 == 1 {
                *row |= reached;
            }
        }
    }

    fn find(&self, name: &str) -> Option<usize> {
        self.names.iter().position(|own| own == name)
    }

    fn acts_for(&self, p: usize, q: usize) -> bool {
        self.rows[p] >> q & 1 == 1
    }

    /// Adds the names of those whose bits a word has.
    fn push_names(&self, text: &mut String, word: u64) {
        let mut parting = "";
        for (place, name) in self.names.iter().enumerate() {
            if word >> place & 1 == 1 {
                text.push_str(parting);
                text.push_str(name);
                parting = ", ";
            }
        }
    }
}

#[derive(Clone, Copy)]
struct Label {
    /// For each owner a word with a bit for each reader that the owner allows.
    rows: [u64; PRINCIPALS],
    /// A word with a bit for each principal that trusts.
    trust: u64,
}

fn is_within(word: u64, other: u64) -> bool {
    word & !other == 0
}

impl Label {
    const EMPTY: Label = Label { rows: [u64::MAX; PRINCIPALS], trust: 0 };

    fn bottom(principals: &Principals) -> Label {
        Label { trust: (1 << principals.names.len()) - 1, ..Label::EMPTY }
    }

    fn add_policy(&mut self, principals: &Principals, owner: usize, readers: &[usize]) {
        let count = principals.names.len();
        let mut forbidden = OUTSIDER;
        for place in 0..count {
            if !principals.acts_for(place, owner) && !readers.iter().any(|reader| principals.acts_for(place, *reader)) {
                forbidden |= 1 << place;
            }
        }
        for place in 0..count {
            if principals.acts_for(owner, place) {
                self.rows[place] &= !forbidden;
            }
        }
    }

    fn add_trust(&mut self, principals: &Principals, members: &[usize]) {
        for member in members {
            self.trust |= principals.rows[*member];
        }
    }

    fn add(&mut self, other: &Label) {
        for (row, other) in self.rows.iter_mut().zip(&other.rows) {
            *row &= other;
        }
        self.trust &= other.trust;
    }

    fn join(mut self, other: &Label) -> Label {
        self.add(other);
        self
    }

    /// The confidentiality of the label and this integrity.
    fn trusted_by(self, trust: u64) -> Label {
        Label { trust, ..self }
    }

    fn conf_flows(&self, to: &Label) -> bool {
        self.rows.iter().zip(&to.rows).all(|(from, to)| is_within(*to, *from))
    }

    fn flows(&self, to: &Label) -> bool {
        self.conf_flows(to) && is_within(to.trust, self.trust)
    }

    fn text(&self, principals: &Principals) -> String {
        let mut text = String::from("{");
        let mut parting = "";
        for (name, row) in principals.names.iter().zip(&self.rows) {
            if *row != u64::MAX {
                text.push_str(parting);
                text.push_str(name);
                text.push_str(": ");
                principals.push_names(&mut text, *row);
                parting = "; ";
            }
        }
        if self.trust != 0 {
            text.push_str(parting);
            text.push_str("?: ");
            principals.push_names(&mut text, self.trust);
        }
        text.push('}');
        text
    }
}

// ---- the host file

struct Host {
    name: String,
    label: Label,
}

struct Hosts {
    hosts: Vec<Host>,
    costs: Vec<Vec<u64>>,
}

enum Value {
    Text(String),
    Number(u64),
    List(Vec<Value>),
}

impl Value {
    fn into_text(self) -> Option<String> {
        match self {
            Value::Text(text) => Some(text),
            _ => None,
        }
    }

    fn into_list(self) -> Option<Vec<Value>> {
        match self {
            Value::List(values) => Some(values),
            _ => None,
        }
    }

    fn into_number(self) -> Option<u64> {
        match self {
            Value::Number(number) => Some(number),
            _ => None,
        }
    }
}

type Table = HashMap<String, Value>;

/// The value with which a line begins, and what stands behind it: a text in double quotes without escapes, a number in
/// decimal digits, or an array of values.
fn value(line: &str) -> Option<(Value, &str)> {
    if let Some(rest) = line.strip_prefix('"') {
        let (text, rest) = rest.split_once('"')?;
        return Some((Value::Text(text.to_owned()), rest.trim_start()));
    }
    let Some(rest) = line.strip_prefix('[') else {
        let end = line.find(|digit: char| !digit.is_ascii_digit()).unwrap_or(line.len());
        return Some((Value::Number(line[..end].parse().ok()?), line[end..].trim_start()));
    };
    let mut values = Vec::new();
    let mut rest = rest.trim_start();
    while !rest.starts_with(']') {
        let (one, behind) = value(rest)?;
        values.push(one);
        rest = match behind.strip_prefix(',') {
            Some(behind) => behind.trim_start(),
            None if behind.starts_with(']') => behind,
            None => return None,
        };
    }
    Some((Value::List(values), rest[1..].trim_start()))
}

/// The tables of a file, each with its heading. That of the top level is the first, and its heading is empty.
fn tables(text: &str) -> Option<Vec<(&str, Table)>> {
    let mut tables = vec![("", Table::new())];
    for line in text.lines().map(str::trim) {
        if line == "[[host]]" || line == "[[link]]" {
            tables.push((line, Table::new()));
        } else if !line.is_empty() && !line.starts_with('#') {
            let (key, given) = line.split_once('=')?;
            let (value, rest) = value(given.trim_start())?;
            let (_, table) = tables.last_mut()?;
            if !rest.is_empty() && !rest.starts_with('#') || table.insert(key.trim().to_owned(), value).is_some() {
                return None;
            }
        }
    }
    Some(tables)
}

fn take<T>(table: &mut Table, key: &str, into: fn(Value) -> Option<T>) -> Result<T, Stop> {
    table.remove(key).and_then(into).ok_or_else(|| hosts_stop(format!("bad key {key}")))
}

fn texts(values: Vec<Value>, key: &str) -> Result<Vec<String>, Stop> {
    let texts: Option<Vec<String>> = values.into_iter().map(Value::into_text).collect();
    texts.ok_or_else(|| hosts_stop(format!("bad key {key}")))
}

fn principals_of(top: &mut Table) -> Result<Principals, Stop> {
    let names = texts(take(top, "principals", Value::into_list)?, "principals")?;
    if names.len() > PRINCIPALS {
        return Err(hosts_stop("too many principals"));
    }
    if let Some(place) = (0..names.len()).find(|place| names[..*place].contains(&names[*place])) {
        return Err(hosts_stop(format!("principal {} twice", names[place])));
    }
    let mut principals = Principals::new(names);
    if top.contains_key("acts_for") {
        for pair in take(top, "acts_for", Value::into_list)? {
            let pair = texts(pair.into_list().unwrap_or_default(), "acts_for")?;
            let [first, second] = &pair[..] else {
                return Err(hosts_stop("bad key acts_for"));
            };
            let find = |name: &str| {
                principals.find(name).ok_or_else(|| hosts_stop(format!("unknown principal {name}")))
            };
            let (first, second) = (find(first)?, find(second)?);
            principals.add_pair(first, second);
        }
    }
    Ok(principals)
}

/// The label that a text writes over these principals.
fn label_in(text: &str, principals: &Principals) -> Option<Label> {
    let tokens = lex(text.as_bytes()).ok()?;
    let draft = parse_label(&tokens).ok()?;
    let mut resolver = Resolver::new(principals, HashMap::new());
    let label = resolver.label(&draft);
    resolver.fault.is_none().then_some(label)
}

fn read_hosts(bytes: &[u8]) -> Result<(Principals, Hosts), Stop> {
    if bytes.len() > 65_536 {
        return Err(hosts_stop("too long"));
    }
    let text = std::str::from_utf8(bytes).map_err(|_| hosts_stop("not TOML"))?;
    let mut tables = tables(text).ok_or_else(|| hosts_stop("not TOML"))?;
    let principals = principals_of(&mut tables[0].1)?;
    let (host_tables, link_tables): (Vec<_>, Vec<_>) =
        tables.into_iter().skip(1).partition(|(heading, _)| *heading == "[[host]]");
    if host_tables.is_empty() {
        return Err(hosts_stop("no host"));
    }
    if host_tables.len() > 16 {
        return Err(hosts_stop("too many hosts"));
    }
    let mut hosts: Vec<Host> = Vec::new();
    for (_, mut table) in host_tables {
        let name = take(&mut table, "name", Value::into_text)?;
        let text = take(&mut table, "label", Value::into_text)?;
        if hosts.iter().any(|host| host.name == name) {
            return Err(hosts_stop(format!("host {name} twice")));
        }
        let label = label_in(&text, &principals).ok_or_else(|| hosts_stop(format!("bad label of host {name}")))?;
        hosts.push(Host { name, label });
    }
    let mut costs: Vec<Vec<Option<u64>>> = vec![vec![None; hosts.len()]; hosts.len()];
    for (number, (_, mut table)) in link_tables.into_iter().enumerate() {
        let from = take(&mut table, "from", Value::into_text)?;
        let to = take(&mut table, "to", Value::into_text)?;
        let cost = take(&mut table, "cost", Value::into_number)?;
        let find = |name: String| hosts.iter().position(|host| host.name == name);
        match (find(from), find(to)) {
            (Some(from), Some(to)) if from != to && (1..=1000).contains(&cost) && costs[from][to].is_none() => {
                costs[from][to] = Some(cost);
            }
            _ => return Err(hosts_stop(format!("bad link {number}"))),
        }
    }
    let cost = |(from, row): (usize, Vec<Option<u64>>)| {
        let column = row.iter().enumerate().map(|(to, cost)| if from == to { 0 } else { cost.unwrap_or(1) });
        column.collect()
    };
    let costs = costs.into_iter().enumerate().map(cost).collect();
    Ok((principals, Hosts { hosts, costs }))
}

// ---- programs whose names are resolved

struct Program {
    fields: Vec<Field>,
    vars: Vec<Var>,
    methods: Vec<Method>,
    main: usize,
    /// The lines of the statements.
    lines: Vec<u32>,
}

struct Field {
    name: String,
    label: Label,
    #[allow(dead_code)]
    array: bool,
}

/// A parameter, a local or a result with its name; without a label where a local is declared so.
struct Var {
    #[allow(dead_code)]
    name: String,
    label: Option<Label>,
}

struct Method {
    begin: Label,
    params: Vec<usize>,
    result: Option<usize>,
    authority: Vec<usize>,
    head: usize,
    body: Vec<Stmt>,
}

struct Stmt {
    id: usize,
    kind: StmtKind,
}

enum StmtKind {
    Let { var: usize, value: Expr },
    SetField { field: usize, value: Expr },
    SetElement { field: usize, index: Expr, value: Expr },
    If { guard: Expr, yes: Vec<Stmt>, no: Vec<Stmt> },
    While { guard: Expr, body: Vec<Stmt> },
    Call { method: usize, args: Vec<Expr>, into: Option<usize> },
    Return { value: Expr },
}

#[allow(dead_code)]
enum Expr {
    Number(i64),
    Local(usize),
    Scalar(usize),
    Element(usize, Box<Expr>),
    Not(Box<Expr>),
    Negate(Box<Expr>),
    Binary(BinOp, Box<Expr>, Box<Expr>),
    Declassify(Box<Expr>, Box<Label>),
    Endorse(Box<Expr>, Box<Label>),
}

// ---- names

/// The kinds of faults, in the order in which those of one token come.
#[derive(Clone, Copy, PartialEq, Eq, PartialOrd, Ord)]
enum FaultKind {
    UnknownName,
    Twice,
    WrongType,
    WrongCount,
}

#[derive(Clone, Copy)]
enum Meaning {
    Variable(usize),
    Plain(usize),
    Array(usize),
    /// Its number, how many parameters it has, and whether it has a result.
    Method(usize, usize, bool),
}

struct Resolver<'a> {
    principals: &'a Principals,
    /// Where a name is first declared, and what it then stands for.
    globals: HashMap<&'a str, (u32, Meaning)>,
    fault: Option<(u32, FaultKind)>,
    vars: Vec<Var>,
    lines: Vec<u32>,
    /// The names of the parameters and locals of the method so far.
    taken: Vec<&'a str>,
    /// Those that are known.
    known: Vec<(&'a str, usize)>,
}

fn globals_of(draft: &Draft) -> HashMap<&str, (u32, Meaning)> {
    let mut globals: HashMap<&str, (u32, Meaning)> = HashMap::new();
    let fields = draft.fields.iter().enumerate().map(|(number, field)| {
        let meaning = if field.array { Meaning::Array(number) } else { Meaning::Plain(number) };
        (&field.name, meaning)
    });
    let methods = draft.methods.iter().enumerate().map(|(number, method)| {
        (&method.name, Meaning::Method(number, method.params.len(), method.result.is_some()))
    });
    for (name, meaning) in fields.chain(methods) {
        let first = globals.entry(&name.text).or_insert((name.at, meaning));
        if name.at < first.0 {
            *first = (name.at, meaning);
        }
    }
    globals
}

impl<'a> Resolver<'a> {
    fn new(principals: &'a Principals, globals: HashMap<&'a str, (u32, Meaning)>) -> Resolver<'a> {
        Resolver {
            principals,
            globals,
            fault: None,
            vars: Vec::new(),
            lines: Vec::new(),
            taken: Vec::new(),
            known: Vec::new(),
        }
    }

    fn fault_if(&mut self, wrong: bool, at: u32, kind: FaultKind) {
        if wrong && self.fault.is_none_or(|first| (at, kind) < first) {
            self.fault = Some((at, kind));
        }
    }

    fn fault(&mut self, at: u32, kind: FaultKind) {
        self.fault_if(true, at, kind);
    }

    fn principal(&mut self, name: &NameDraft) -> usize {
        self.principals.find(&name.text).unwrap_or_else(|| {
            self.fault(name.at, FaultKind::UnknownName);
            0
        })
    }

    fn principals(&mut self, names: &[NameDraft]) -> Vec<usize> {
        names.iter().map(|name| self.principal(name)).collect()
    }

    fn label(&mut self, draft: &LabelDraft) -> Label {
        let mut label = Label::EMPTY;
        for policy in &draft.policies {
            let owner = self.principal(&policy.owner);
            let readers = self.principals(&policy.readers);
            label.add_policy(self.principals, owner, &readers);
        }
        if let Some(members) = &draft.trust {
            let members = self.principals(members);
            label.add_trust(self.principals, &members);
        }
        label
    }

    fn meaning(&self, name: &str) -> Option<Meaning> {
        match self.known.iter().rev().find(|(known, _)| *known == name) {
            Some((_, var)) => Some(Meaning::Variable(*var)),
            None => self.globals.get(name).map(|(_, meaning)| *meaning),
        }
    }

    fn wrong(&mut self, name: &NameDraft, meaning: Option<Meaning>) {
        let kind = if meaning.is_none() { FaultKind::UnknownName } else { FaultKind::WrongType };
        self.fault(name.at, kind);
    }

    fn array(&mut self, name: &NameDraft) -> usize {
        match self.meaning(&name.text) {
            Some(Meaning::Array(field)) => field,
            other => {
                self.wrong(name, other);
                0
            }
        }
    }

    fn declare(&mut self, name: &'a NameDraft, label: Option<Label>) -> usize {
        let var = self.vars.len();
        self.vars.push(Var { name: name.text.clone(), label });
        self.taken.push(&name.text);
        self.known.push((&name.text, var));
        var
    }

    fn test_local(&mut self, name: &NameDraft) {
        let name_taken = self.globals.contains_key(&*name.text) || self.taken.contains(&&*name.text);
        self.fault_if(name_taken, name.at, FaultKind::Twice);
    }

    fn expr(&mut self, draft: &ExprDraft) -> Expr {
        match draft {
            ExprDraft::Number(value) => Expr::Number(*value),
            ExprDraft::Name(name) => match self.meaning(&name.text) {
                Some(Meaning::Variable(var)) => Expr::Local(var),
                Some(Meaning::Plain(field)) => Expr::Scalar(field),
                other => {
                    self.wrong(name, other);
                    Expr::Number(0)
                }
            },
            ExprDraft::Element(name, index) => {
                let field = self.array(name);
                Expr::Element(field, self.boxed(index))
            }
            ExprDraft::Not(operand) => Expr::Not(self.boxed(operand)),
            ExprDraft::Negate(operand) => Expr::Negate(self.boxed(operand)),
            ExprDraft::Binary(operator, left, right) => {
                let left = self.boxed(left);
                Expr::Binary(*operator, left, self.boxed(right))
            }
            ExprDraft::Declassify(operand, label) => {
                let operand = self.boxed(operand);
                Expr::Declassify(operand, Box::new(self.label(label)))
            }
            ExprDraft::Endorse(operand, label) => {
                let operand = self.boxed(operand);
                Expr::Endorse(operand, Box::new(self.label(label)))
            }
        }
    }

    fn boxed(&mut self, draft: &ExprDraft) -> Box<Expr> {
        Box::new(self.expr(draft))
    }

    fn next_statement(&mut self, line: u32) -> usize {
        self.lines.push(line);
        self.lines.len() - 1
    }

    fn block(&mut self, drafts: &'a [StmtDraft], gives: bool) -> Vec<Stmt> {
        let mark = self.known.len();
        let block = drafts.iter().map(|draft| self.statement(draft, gives)).collect();
        self.known.truncate(mark);
        block
    }

    fn statement(&mut self, draft: &'a StmtDraft, gives: bool) -> Stmt {
        let id = self.next_statement(draft.line);
        let kind = match &draft.kind {
            StmtKindDraft::Declare { label, name, value } => {
                let label = label.as_ref().map(|label| self.label(label));
                self.test_local(name);
                let value = self.expr(value);
                StmtKind::Let { var: self.declare(name, label), value }
            }
            StmtKindDraft::Assign { name, value } => {
                let meaning = self.meaning(&name.text);
                let value = self.expr(value);
                match meaning {
                    Some(Meaning::Variable(var)) => StmtKind::Let { var, value },
                    Some(Meaning::Plain(field)) => StmtKind::SetField { field, value },
                    other => {
                        self.wrong(name, other);
                        StmtKind::Return { value }
                    }
                }
            }
            StmtKindDraft::AssignElement { array, index, value } => {
                let field = self.array(array);
                let index = self.expr(index);
                StmtKind::SetElement { field, index, value: self.expr(value) }
            }
            StmtKindDraft::If { guard, yes, no } => {
                let guard = self.expr(guard);
                let yes = self.block(yes, gives);
                StmtKind::If { guard, yes, no: self.block(no, gives) }
            }
            StmtKindDraft::While { guard, body } => {
                let guard = self.expr(guard);
                StmtKind::While { guard, body: self.block(body, gives) }
            }
            StmtKindDraft::Call { method, args, into } => self.call(method, args, into.as_ref()),
            StmtKindDraft::Return { value } => {
                self.fault_if(!gives, draft.at, FaultKind::WrongType);
                StmtKind::Return { value: self.expr(value) }
            }
        };
        Stmt { id, kind }
    }

    fn call(&mut self, name: &NameDraft, args: &[ExprDraft], into: Option<&NameDraft>) -> StmtKind {
        let method = match self.meaning(&name.text) {
            Some(Meaning::Method(method, params, gives)) => {
                self.fault_if(into.is_some() != gives, name.at, FaultKind::WrongType);
                self.fault_if(args.len() != params, name.at, FaultKind::WrongCount);
                method
            }
            other => {
                self.wrong(name, other);
                0
            }
        };
        let into = into.map(|name| match self.meaning(&name.text) {
            Some(Meaning::Variable(var)) => var,
            other => {
                self.wrong(name, other);
                0
            }
        });
        let args = args.iter().map(|arg| self.expr(arg)).collect();
        StmtKind::Call { method, args, into }
    }

    fn method(&mut self, draft: &'a MethodDraft) -> Method {
        self.taken.clear();
        self.known.clear();
        let given = draft.result.as_ref().map(|label| self.label(label));
        let begin = self.label(&draft.begin);
        let mut params = Vec::new();
        for param in &draft.params {
            let label = self.label(&param.label);
            self.test_local(&param.name);
            params.push(self.declare(&param.name, Some(label)));
        }
        let authority = self.principals(&draft.authority);
        let ends = matches!(draft.body.last(), Some(StmtDraft { kind: StmtKindDraft::Return { .. }, .. }));
        self.fault_if(given.is_some() && !ends, draft.name.at, FaultKind::WrongType);
        let head = self.next_statement(draft.line);
        let body = self.block(&draft.body, given.is_some());
        let result = given.map(|label| {
            self.vars.push(Var { name: "return".to_owned(), label: Some(label) });
            self.vars.len() - 1
        });
        Method { begin, params, result, authority, head, body }
    }
}

fn resolve(draft: &Draft, principals: &Principals) -> Result<Program, Stop> {
    let mut resolver = Resolver::new(principals, globals_of(draft));
    let names = draft.fields.iter().map(|field| &field.name).chain(draft.methods.iter().map(|method| &method.name));
    for name in names {
        let repeats = resolver.globals[&*name.text].0 < name.at;
        resolver.fault_if(repeats, name.at, FaultKind::Twice);
    }
    let mut fields = Vec::new();
    for field in &draft.fields {
        fields.push(Field {
            name: field.name.text.clone(),
            label: resolver.label(&field.label),
            array: field.array,
        });
    }
    let methods = draft.methods.iter().map(|method| resolver.method(method)).collect();
    if let Some((at, kind)) = resolver.fault {
        let cause = match kind {
            FaultKind::UnknownName => "unknown name",
            FaultKind::Twice => "name twice",
            FaultKind::WrongType => "wrong type",
            FaultKind::WrongCount => "wrong count",
        };
        return Err(program_stop(format!("{cause} at token {at}")));
    }
    let is_main =
        |method: &MethodDraft| method.name.text == "main" && method.params.is_empty() && method.result.is_none();
    let main = draft.methods.iter().position(is_main).ok_or_else(|| program_stop("no main"))?;
    Ok(Program { fields, vars: resolver.vars, methods, main, lines: resolver.lines })
}

// ---- labels

enum Refusal {
    BadFlow(Box<(Label, Label)>),
    BadBegin(Box<(Label, Label)>),
    NoAuthority,
    NotTrusted,
}

/// What the labels of the expressions of a method are found from.
struct Exprs<'a> {
    principals: &'a Principals,
    fields: &'a [Field],
    authority: &'a [usize],
}

struct Checker<'a> {
    exprs: Exprs<'a>,
    methods: &'a [Method],
    result: Option<usize>,
    labels: Vec<Option<Label>>,
    pcs: Vec<Label>,
}

type Asked<T> = Result<T, Refusal>;

fn released(to: &Label, pc: &Label, from: &Label) -> Label {
    to.join(pc).trusted_by(from.trust)
}

fn endorsed(to: &Label, pc: &Label, from: &Label) -> Label {
    from.trusted_by(to.trust & pc.trust)
}

impl Exprs<'_> {
    /// Checks what a release asks for.
    fn release(&self, pc: &Label, from: &Label, to: &Label) -> Asked<()> {
        let mut allowed = *to;
        for member in self.authority {
            allowed.add_policy(self.principals, *member, &[]);
        }
        if !from.conf_flows(&allowed) {
            return Err(Refusal::NoAuthority);
        }
        if self.authority.iter().any(|member| pc.trust >> member & 1 == 0) {
            return Err(Refusal::NotTrusted);
        }
        Ok(())
    }

    /// Checks what an endorsement asks for.
    fn endorse(&self, from: &Label, to: &Label) -> Asked<()> {
        let allowed = self.authority.iter().fold(from.trust, |trust, member| trust | self.principals.rows[*member]);
        if is_within(to.trust, allowed) { Ok(()) } else { Err(Refusal::NoAuthority) }
    }

    /// The label of an expression, where all is met that its parts ask for.
    fn checked(&self, labels: &[Option<Label>], pc: &Label, expr: &Expr) -> Asked<Label> {
        Ok(match expr {
            Expr::Number(_) => Label::bottom(self.principals),
            Expr::Local(var) => labels[*var].unwrap_or(Label::EMPTY),
            Expr::Scalar(field) => self.fields[*field].label,
            Expr::Element(field, index) => self.checked(labels, pc, index)?.join(&self.fields[*field].label),
            Expr::Not(operand) | Expr::Negate(operand) => self.checked(labels, pc, operand)?,
            Expr::Binary(_, left, right) => {
                let left = self.checked(labels, pc, left)?;
                left.join(&self.checked(labels, pc, right)?)
            }
            Expr::Declassify(operand, to) => {
                let from = self.checked(labels, pc, operand)?;
                self.release(pc, &from, to)?;
                released(to, pc, &from)
            }
            Expr::Endorse(operand, to) => {
                let from = self.checked(labels, pc, operand)?;
                self.endorse(&from, to)?;
                endorsed(to, pc, &from)
            }
        })
    }
}

fn ask_flow(pc: &Label, from: &Label, to: &Label) -> Asked<()> {
    let joined = from.join(pc);
    if joined.flows(to) { Ok(()) } else { Err(Refusal::BadFlow(Box::new((joined, *to)))) }
}

impl Checker<'_> {
    fn expr(&self, pc: &Label, expr: &Expr) -> Asked<Label> {
        self.exprs.checked(&self.labels, pc, expr)
    }

    fn label(&self, var: usize) -> Label {
        self.labels[var].unwrap_or(Label::EMPTY)
    }

    fn block(&mut self, pc: &Label, block: &[Stmt]) -> Result<(), (usize, Refusal)> {
        for statement in block {
            match &statement.kind {
                StmtKind::If { guard, yes, no } => {
                    let from = self.expr(pc, guard).map_err(|why| (statement.id, why))?;
                    let inside = from.join(pc);
                    self.pcs.push(*pc);
                    self.block(&inside, yes)?;
                    self.block(&inside, no)?;
                }
                StmtKind::While { guard, body } => {
                    let from = self.expr(pc, guard).map_err(|why| (statement.id, why))?;
                    let inside = from.join(pc);
                    self.expr(&inside, guard).map_err(|why| (statement.id, why))?;
                    self.pcs.push(inside);
                    self.block(&inside, body)?;
                }
                other => {
                    self.plain(pc, other).map_err(|why| (statement.id, why))?;
                    self.pcs.push(*pc);
                }
            }
        }
        Ok(())
    }

    /// Checks a statement that has no others in it.
    fn plain(&mut self, pc: &Label, kind: &StmtKind) -> Asked<()> {
        match kind {
            StmtKind::Let { var, value } => {
                let from = self.expr(pc, value)?;
                let to = *self.labels[*var].get_or_insert_with(|| from.join(pc));
                ask_flow(pc, &from, &to)
            }
            StmtKind::SetField { field, value } => {
                let from = self.expr(pc, value)?;
                ask_flow(pc, &from, &self.exprs.fields[*field].label)
            }
            StmtKind::SetElement { field, index, value } => {
                let at = self.expr(pc, index)?;
                let from = self.expr(pc, value)?;
                ask_flow(pc, &at.join(&from), &self.exprs.fields[*field].label)
            }
            StmtKind::Call { method, args, into } => {
                let called = &self.methods[*method];
                let from: Vec<Label> = args.iter().map(|arg| self.expr(pc, arg)).collect::<Asked<_>>()?;
                if !pc.flows(&called.begin) {
                    return Err(Refusal::BadBegin(Box::new((*pc, called.begin))));
                }
                for (from, param) in from.iter().zip(&called.params) {
                    ask_flow(pc, from, &self.label(*param))?;
                }
                match (called.result, into) {
                    (Some(result), Some(into)) => ask_flow(pc, &self.label(result), &self.label(*into)),
                    _ => Ok(()),
                }
            }
            StmtKind::Return { value } => {
                let from = self.expr(pc, value)?;
                match self.result {
                    Some(result) => ask_flow(pc, &from, &self.label(result)),
                    None => Ok(()),
                }
            }
            StmtKind::If { .. } | StmtKind::While { .. } => Ok(()),
        }
    }
}

/// What was found of a program whose labels are kept: the label of each variable, and the program label of each
/// statement.
struct Found {
    labels: Vec<Option<Label>>,
    pcs: Vec<Label>,
}

fn check(program: &mut Program, principals: &Principals) -> Result<Found, Stop> {
    let exprs = Exprs { principals, fields: &program.fields, authority: &[] };
    let labels = program.vars.iter().map(|var| var.label).collect();
    let mut checker = Checker { exprs, methods: &program.methods, result: None, labels, pcs: Vec::new() };
    for method in &program.methods {
        checker.exprs.authority = &method.authority;
        checker.result = method.result;
        checker.pcs.push(method.begin);
        checker.block(&method.begin, &method.body).map_err(|(id, why)| {
            let cause = match why {
                Refusal::BadFlow(labels) => {
                    let (from, to) = (labels.0.text(principals), labels.1.text(principals));
                    format!("{from} may not flow to {to}")
                }
                Refusal::BadBegin(labels) => {
                    let (pc, begin) = (labels.0.text(principals), labels.1.text(principals));
                    format!("program label {pc} may not flow to begin label {begin}")
                }
                Refusal::NoAuthority => "no authority".to_owned(),
                Refusal::NotTrusted => "program label not trusted".to_owned(),
            };
            Stop(3, format!("statement {id} (line {}): {cause}", program.lines[id]))
        })?;
    }
    Ok(Found { labels: checker.labels, pcs: checker.pcs })
}

// ---- needs

/// What is needed of hosts.
struct Needs {
    /// By statement, what its execution tells.
    used: Vec<Label>,
    /// By statement, a word with a bit for each principal that has to trust its host.
    need: Vec<u64>,
    /// By statement, the same word of it and of those behind it in its block.
    rest: Vec<u64>,
    /// By field, what its reads tell.
    told: Vec<Label>,
    /// By variable, the statements whose own expressions read it.
    readers: Vec<Vec<usize>>,
}

/// Walks over the statements of a method.
struct NeedsWalk<'a> {
    principals: &'a Principals,
    program: &'a Program,
    found: &'a Found,
    /// For whom the method's authority acts.
    releasing: u64,
    result: Option<usize>,
    needs: Needs,
}

impl NeedsWalk<'_> {
    fn label(&self, var: usize) -> &Label {
        self.found.labels[var].as_ref().unwrap_or(&Label::EMPTY)
    }

    fn trust(&self, var: Option<usize>) -> u64 {
        var.map_or(0, |var| self.label(var).trust)
    }

    /// The label of an expression of a statement. Adds what it tells, and who has to be trusted where it releases.
    fn expr(&mut self, id: usize, pc: &Label, expr: &Expr) -> Label {
        let label = match expr {
            Expr::Number(_) => Label::bottom(self.principals),
            Expr::Local(var) => {
                let readers = &mut self.needs.readers[*var];
                if readers.last() != Some(&id) {
                    readers.push(id);
                }
                *self.label(*var)
            }
            Expr::Scalar(field) => {
                self.needs.told[*field].add(pc);
                self.program.fields[*field].label
            }
            Expr::Element(field, index) => {
                let at = self.expr(id, pc, index);
                let told = &mut self.needs.told[*field];
                told.add(pc);
                told.add(&at);
                at.join(&self.program.fields[*field].label)
            }
            Expr::Not(operand) | Expr::Negate(operand) => self.expr(id, pc, operand),
            Expr::Binary(_, left, right) => {
                let left = self.expr(id, pc, left);
                left.join(&self.expr(id, pc, right))
            }
            Expr::Declassify(operand, to) => {
                let from = self.expr(id, pc, operand);
                self.needs.need[id] |= self.releasing;
                released(to, pc, &from)
            }
            Expr::Endorse(operand, to) => {
                let from = self.expr(id, pc, operand);
                endorsed(to, pc, &from)
            }
        };
        self.needs.used[id].add(&label);
        label
    }

    /// Adds the needs of the statements of a block, and gives who has to be trusted for any of them.
    fn block(&mut self, block: &[Stmt]) -> u64 {
        let word = block.iter().fold(0, |word, statement| word | self.statement(statement));
        let mut rest = 0;
        for statement in block.iter().rev() {
            rest |= self.needs.need[statement.id];
            self.needs.rest[statement.id] = rest;
        }
        word
    }

    fn statement(&mut self, statement: &Stmt) -> u64 {
        let (id, program, found) = (statement.id, self.program, self.found);
        let pc = &found.pcs[id];
        self.needs.used.push(*pc);
        self.needs.need.push(0);
        self.needs.rest.push(0);
        let changed = match &statement.kind {
            StmtKind::Let { var, value } => {
                self.expr(id, pc, value);
                self.trust(Some(*var))
            }
            StmtKind::SetField { field, value } => {
                self.expr(id, pc, value);
                program.fields[*field].label.trust
            }
            StmtKind::SetElement { field, index, value } => {
                self.expr(id, pc, index);
                self.expr(id, pc, value);
                program.fields[*field].label.trust
            }
            StmtKind::If { guard, yes, no } => {
                self.expr(id, pc, guard);
                self.block(yes) | self.block(no)
            }
            StmtKind::While { guard, body } => {
                self.expr(id, pc, guard);
                self.block(body)
            }
            StmtKind::Call { method, args, into } => {
                for arg in args {
                    self.expr(id, pc, arg);
                }
                let called = &program.methods[*method];
                self.needs.used[id].add(&called.begin);
                if let (Some(result), Some(_)) = (called.result, into) {
                    let kept = *self.label(result);
                    self.needs.used[id].add(&kept);
                }
                let given = called.params.iter().fold(0, |word, param| word | self.trust(Some(*param)));
                called.begin.trust | given | self.trust(*into)
            }
            StmtKind::Return { value } => {
                self.expr(id, pc, value);
                self.trust(self.result)
            }
        };
        self.needs.need[id] |= changed;
        self.needs.need[id]
    }
}

fn needs_of(principals: &Principals, program: &Program, found: &Found) -> Needs {
    let needs = Needs {
        used: Vec::new(),
        need: Vec::new(),
        rest: Vec::new(),
        told: vec![Label::bottom(principals); program.fields.len()],
        readers: vec![Vec::new(); found.labels.len()],
    };
    let mut walk = NeedsWalk { principals, program, found, releasing: 0, result: None, needs };
    for method in &program.methods {
        walk.releasing = method.authority.iter().fold(0, |word, member| word | principals.rows[*member]);
        walk.result = method.result;
        walk.needs.used.push(method.begin);
        walk.needs.need.push(method.begin.trust);
        walk.needs.rest.push(method.begin.trust);
        walk.block(&method.body);
    }
    walk.needs
}

// ---- which hosts may hold what

/// A word of hosts for each field and each statement.
struct Allowed {
    fields: Vec<u16>,
    statements: Vec<u16>,
}

fn holders(hosts: &Hosts, told: &Label, need: u64) -> u16 {
    let mut word = 0;
    for (place, host) in hosts.hosts.iter().enumerate() {
        if is_within(need, host.label.trust) && told.conf_flows(&host.label) {
            word |= 1 << place;
        }
    }
    word
}

fn allowed_on(program: &Program, needs: &Needs, hosts: &Hosts) -> Result<Allowed, Stop> {
    let field_word =
        |(field, told): (&Field, &Label)| holders(hosts, &field.label.join(told), field.label.trust);
    let fields: Vec<u16> = program.fields.iter().zip(&needs.told).map(field_word).collect();
    if let Some(field) = fields.iter().position(|word| *word == 0) {
        return Err(Stop(3, format!("no host may hold field {}", program.fields[field].name)));
    }
    let statements: Vec<u16> =
        needs.used.iter().zip(&needs.need).map(|(used, need)| holders(hosts, used, *need)).collect();
    if let Some(id) = statements.iter().position(|word| *word == 0) {
        return Err(Stop(3, format!("no host may hold statement {id} (line {})", program.lines[id])));
    }
    Ok(Allowed { fields, statements })
}

// ---- plans

struct Plan {
    fields: Vec<usize>,
    statements: Vec<usize>,
}

/// The plan by which all that a host may hold stands on it, and everything else on the first host that may hold it.
fn starting_plan(allowed: &Allowed, host: usize) -> Plan {
    let chosen = |word: &u16| if word >> host & 1 == 1 { host } else { word.trailing_zeros() as usize };
    Plan {
        fields: allowed.fields.iter().map(chosen).collect(),
        statements: allowed.statements.iter().map(chosen).collect(),
    }
}

/// Which host runs the statements of a block from some statement on, and which gets the right to go on behind a segment
/// to whose host it is lent.
#[derive(Clone, Copy, PartialEq)]
struct Spot {
    host: usize,
    back: Option<usize>,
}

impl Spot {
    fn on(host: usize) -> Spot {
        Spot { host, back: None }
    }

    fn end(self) -> usize {
        self.back.unwrap_or(self.host)
    }

    /// The host to which the right to go on goes straight from here to the next spot, and to which a value may ride.
    fn straight_to(self, next: Spot) -> Option<usize> {
        match (self.back, next.back) {
            _ if self.host == next.host => None,
            (None, None) => Some(next.host),
            (None, Some(back)) if back == self.host => Some(next.host),
            _ => None,
        }
    }
}

/// The variable to which a statement gives a value.
fn gives(statement: &Stmt) -> Option<usize> {
    match statement.kind {
        StmtKind::Let { var, .. } => Some(var),
        StmtKind::Call { into, .. } => into,
        _ => None,
    }
}

/// What a plan costs.
struct Costs<'a> {
    program: &'a Program,
    needs: &'a Needs,
    hosts: &'a Hosts,
    plan: &'a Plan,
    /// By variable, a word of the hosts on which a statement reads it.
    reading: Vec<u16>,
    /// By method, the host that holds the right to go on behind its body.
    ends: Vec<usize>,
    /// A statement that is moved, and the host to which it goes.
    moved: Option<(usize, usize)>,
}

impl<'a> Costs<'a> {
    fn new(program: &'a Program, needs: &'a Needs, hosts: &'a Hosts, plan: &'a Plan) -> Costs<'a> {
        let word = |readers: &Vec<usize>| readers.iter().fold(0, |word, reader| word | 1 << plan.statements[*reader]);
        let reading = needs.readers.iter().map(word).collect();
        let mut costs = Costs { program, needs, hosts, plan, reading, ends: Vec::new(), moved: None };
        let ends = program.methods.iter().map(|method| costs.block_end(plan.statements[method.head], &method.body));
        costs.ends = ends.collect();
        costs
    }

    /// The host of a statement, behind the move where there is one.
    fn at(&self, statement: usize) -> usize {
        match self.moved {
            Some((moved, host)) if moved == statement => host,
            _ => self.plan.statements[statement],
        }
    }

    fn message(&self, weight: u64, from: usize, to: usize) -> u64 {
        weight * self.hosts.costs[from][to]
    }

    fn exchange(&self, weight: u64, from: usize, to: usize) -> u64 {
        weight * (self.hosts.costs[from][to] + self.hosts.costs[to][from])
    }

    fn is_trusted_for_all(&self, host: usize, statements: &[Stmt]) -> bool {
        is_within(self.needs.rest[statements[0].id], self.hosts.hosts[host].label.trust)
    }

    fn return_host(&self, from: usize, host: usize, statements: &[Stmt]) -> usize {
        let others = statements.iter().map(|statement| self.at(statement.id));
        let costs = &self.hosts.costs;
        match others.into_iter().find(|other| *other != host) {
            Some(next)
                if self.is_trusted_for_all(next, statements)
                    && costs[host][next] + costs[next][from] < costs[host][from] =>
            {
                next
            }
            _ => from,
        }
    }

    /// Where the first of these statements runs, behind a spot.
    fn next_spot(&self, spot: Spot, statements: &[Stmt]) -> Spot {
        let host = self.at(statements[0].id);
        if spot.host == host {
            return spot;
        }
        let from = spot.end();
        if from == host || self.is_trusted_for_all(host, statements) {
            return Spot::on(host);
        }
        Spot { host, back: Some(self.return_host(from, host, statements)) }
    }

    /// The host that holds the right to go on behind a block that begins on a host.
    fn block_end(&self, home: usize, block: &[Stmt]) -> usize {
        (0..block.len()).fold(Spot::on(home), |spot, place| self.next_spot(spot, &block[place..])).end()
    }

    fn leave(&self, weight: u64, spot: Spot) -> u64 {
        spot.back.map_or(0, |back| self.message(weight, spot.host, back))
    }

    fn move_on(&self, weight: u64, spot: Spot, next: Spot) -> u64 {
        if spot.host == next.host {
            return 0;
        }
        let from = spot.end();
        let mut cost = self.leave(weight, spot);
        if from != next.host {
            cost += next.back.map_or(0, |back| self.exchange(weight, from, back));
            cost += self.message(weight, from, next.host);
        }
        cost
    }

    fn field(&self, weight: u64, host: usize, field: usize) -> u64 {
        self.exchange(weight, host, self.plan.fields[field])
    }

    fn expr(&self, weight: u64, host: usize, expr: &Expr) -> u64 {
        match expr {
            Expr::Number(_) | Expr::Local(_) => 0,
            Expr::Scalar(field) => self.field(weight, host, *field),
            Expr::Element(field, index) => self.expr(weight, host, index) + self.field(weight, host, *field),
            Expr::Binary(_, left, right) => self.expr(weight, host, left) + self.expr(weight, host, right),
            Expr::Not(operand) | Expr::Negate(operand) => self.expr(weight, host, operand),
            Expr::Declassify(operand, _) | Expr::Endorse(operand, _) => self.expr(weight, host, operand),
        }
    }

    /// The cost of sending a value to each other host of a word, but for the one to which it rides.
    fn sent(&self, weight: u64, host: usize, word: u16, carried: Option<usize>) -> u64 {
        let is_told = |other: &usize| *other != host && word >> other & 1 == 1 && carried != Some(*other);
        (0..self.hosts.hosts.len()).filter(is_told).map(|other| self.exchange(weight, host, other)).sum()
    }

    /// The cost of sending a variable's value to each other host that reads it.
    fn forwards(&self, weight: u64, host: usize, var: usize, carried: Option<usize>) -> u64 {
        self.sent(weight, host, self.reading[var], carried)
    }

    fn given(&self, weight: u64, host: usize, gives: Option<usize>, carried: Option<usize>) -> u64 {
        gives.map_or(0, |var| self.forwards(weight, host, var, carried))
    }

    fn home(&self, method: usize) -> usize {
        self.at(self.program.methods[method].head)
    }

    fn block(&self, weight: u64, home: usize, block: &[Stmt]) -> u64 {
        let mut total = 0;
        let mut spot = Spot::on(home);
        let mut left = None;
        for (place, statement) in block.iter().enumerate() {
            let next = self.next_spot(spot, &block[place..]);
            total += self.given(weight, spot.host, left, spot.straight_to(next));
            total += self.move_on(weight, spot, next) + self.statement(weight, statement);
            left = gives(statement);
            spot = next;
        }
        total + self.given(weight, spot.host, left, None) + self.leave(weight, spot)
    }

    /// The cost of a block in a statement, behind which this host gets back the right to go on.
    fn nested(&self, weight: u64, host: usize, block: &[Stmt]) -> u64 {
        self.block(weight, host, block) + self.message(weight, self.block_end(host, block), host)
    }

    /// The cost of a statement, but for what it gives. That is counted at the next one.
    fn statement(&self, weight: u64, statement: &Stmt) -> u64 {
        let host = self.plan.statements[statement.id];
        match &statement.kind {
            StmtKind::Let { value, .. } => self.expr(weight, host, value),
            StmtKind::SetField { field, value } => {
                self.expr(weight, host, value) + self.field(weight, host, *field)
            }
            StmtKind::SetElement { field, index, value } => {
                self.expr(weight, host, index) + self.expr(weight, host, value) + self.field(weight, host, *field)
            }
            StmtKind::If { guard, yes, no } => {
                self.expr(weight, host, guard) + self.nested(weight, host, yes) + self.nested(weight, host, no)
            }
            StmtKind::While { guard, body } => {
                let deeper = (8 * weight).min(8u64.pow(6));
                self.expr(deeper, host, guard) + self.nested(deeper, host, body)
            }
            StmtKind::Call { method, args, into } => self.call(weight, host, *method, args, *into),
            StmtKind::Return { value } => self.expr(weight, host, value),
        }
    }

    fn call(&self, weight: u64, host: usize, method: usize, args: &[Expr], into: Option<usize>) -> u64 {
        let params = &self.program.methods[method].params;
        let (home, end) = (self.home(method), self.ends[method]);
        let given = args.iter().zip(params).map(|(arg, param)| {
            self.expr(weight, host, arg) + self.forwards(weight, host, *param, Some(home))
        });
        let kept = if into.is_some() { self.exchange(weight, end, host) } else { 0 };
        given.sum::<u64>() + self.message(weight, host, home) + self.message(weight, end, host) + kept
    }

    fn program(&self) -> u64 {
        let methods = 0..self.program.methods.len();
        let bodies = methods.map(|method| self.block(1, self.home(method), &self.program.methods[method].body));
        let main = self.program.main;
        bodies.sum::<u64>() + self.message(1, self.ends[main], self.home(main))
    }
}

/// The cheapest of the starting plans, of two that cost the same that of the earlier host, and its cost.
fn cheapest_plan(program: &Program, needs: &Needs, hosts: &Hosts, allowed: &Allowed) -> (Plan, u64) {
    let plans = (0..hosts.hosts.len()).map(|host| {
        let plan = starting_plan(allowed, host);
        let cost = Costs::new(program, needs, hosts, &plan).program();
        (plan, cost)
    });
    plans.min_by_key(|(_, cost)| *cost).expect("a host")
}


// ---- moves

#[derive(Clone, Copy)]
enum Piece<'a> {
    Access { weight: u64, statement: usize, field: usize },
    Giving { weight: u64, home: usize, block: &'a [Stmt], place: usize, var: usize },
    Passing { weight: u64, statement: usize, method: usize, var: usize },
    Calling { weight: u64, statement: usize, method: usize, kept: bool },
    Walk { weight: u64, home: usize, nested: bool, block: &'a [Stmt] },
    Ending { method: usize },
}

struct Pieces<'a> {
    program: &'a Program,
    all: Vec<Piece<'a>>,
}

impl<'a> Pieces<'a> {
    fn of(program: &'a Program) -> Vec<Piece<'a>> {
        let mut pieces = Pieces { program, all: Vec::new() };
        for method in &program.methods {
            pieces.walk(1, method.head, false, &method.body);
        }
        pieces.all.push(Piece::Ending { method: program.main });
        pieces.all
    }

    fn walk(&mut self, weight: u64, home: usize, nested: bool, block: &'a [Stmt]) {
        self.all.push(Piece::Walk { weight, home, nested, block });
        for (place, statement) in block.iter().enumerate() {
            self.statement(weight, statement);
            if let Some(var) = gives(statement) {
                self.all.push(Piece::Giving { weight, home, block, place, var });
            }
        }
    }

    fn access(&mut self, weight: u64, statement: usize, field: usize) {
        self.all.push(Piece::Access { weight, statement, field });
    }

    fn expr(&mut self, weight: u64, id: usize, expr: &Expr) {
        match expr {
            Expr::Number(_) | Expr::Local(_) => {}
            Expr::Scalar(field) => self.access(weight, id, *field),
            Expr::Element(field, index) => {
                self.expr(weight, id, index);
                self.access(weight, id, *field);
            }
            Expr::Binary(_, left, right) => {
                self.expr(weight, id, left);
                self.expr(weight, id, right);
            }
            Expr::Not(operand) | Expr::Negate(operand) => self.expr(weight, id, operand),
            Expr::Declassify(operand, _) | Expr::Endorse(operand, _) => self.expr(weight, id, operand),
        }
    }

    fn statement(&mut self, weight: u64, statement: &'a Stmt) {
        let id = statement.id;
        match &statement.kind {
            StmtKind::Let { value, .. } => self.expr(weight, id, value),
            StmtKind::SetField { field, value } => {
                self.expr(weight, id, value);
                self.access(weight, id, *field);
            }
            StmtKind::SetElement { field, index, value } => {
                self.expr(weight, id, index);
                self.expr(weight, id, value);
                self.access(weight, id, *field);
            }
            StmtKind::If { guard, yes, no } => {
                self.expr(weight, id, guard);
                self.walk(weight, id, true, yes);
                self.walk(weight, id, true, no);
            }
            StmtKind::While { guard, body } => {
                let deeper = (8 * weight).min(8u64.pow(6));
                self.expr(deeper, id, guard);
                self.walk(deeper, id, true, body);
            }
            StmtKind::Call { method, args, into } => {
                for (arg, param) in args.iter().zip(&self.program.methods[*method].params) {
                    self.expr(weight, id, arg);
                    self.all.push(Piece::Passing { weight, statement: id, method: *method, var: *param });
                }
                self.all.push(Piece::Calling { weight, statement: id, method: *method, kept: into.is_some() });
            }
            StmtKind::Return { value } => self.expr(weight, id, value),
        }
    }
}

/// By field and by statement, the pieces that depend on its host.
struct Index<'a> {
    fields: Vec<Vec<Piece<'a>>>,
    statements: Vec<Vec<Piece<'a>>>,
}

impl<'a> Index<'a> {
    fn of(program: &'a Program, needs: &Needs, fields: usize, statements: usize) -> Index<'a> {
        let mut index = Index { fields: vec![Vec::new(); fields], statements: vec![Vec::new(); statements] };
        let mut marks = vec![0; statements];
        for (turn, piece) in Pieces::of(program).into_iter().enumerate() {
            let rows = &mut index.statements;
            let mut note = |statement: usize| {
                if marks[statement] != turn + 1 {
                    marks[statement] = turn + 1;
                    rows[statement].push(piece);
                }
            };
            match piece {
                Piece::Access { statement, field, .. } => {
                    note(statement);
                    index.fields[field].push(piece);
                }
                Piece::Giving { block, place, var, .. } => {
                    note(block[place].id);
                    needs.readers[var].iter().for_each(|reader| note(*reader));
                }
                Piece::Passing { statement, method, var, .. } => {
                    note(statement);
                    note(program.methods[method].head);
                    needs.readers[var].iter().for_each(|reader| note(*reader));
                }
                Piece::Calling { statement, method, .. } => {
                    note(statement);
                    note(program.methods[method].head);
                    program.methods[method].body.iter().for_each(|own| note(own.id));
                }
                Piece::Walk { home, block, .. } => {
                    note(home);
                    block.iter().for_each(|own| note(own.id));
                }
                Piece::Ending { method } => {
                    note(program.methods[method].head);
                    program.methods[method].body.iter().for_each(|own| note(own.id));
                }
            }
        }
        index
    }
}

/// What something costs before a move and behind it, but for what it costs both times.
#[derive(Clone, Copy, Default)]
struct Change {
    before: u64,
    after: u64,
}

impl<'a> Costs<'a> {
    /// The host that holds the right to go on behind a block. Each statement stands on a host that may hold it, and so
    /// the last segment is not lent.
    fn end_of(&self, home: usize, block: &[Stmt]) -> usize {
        block.last().map_or(home, |last| self.at(last.id))
    }

    fn found_end(&self, method: usize) -> usize {
        self.end_of(self.home(method), &self.program.methods[method].body)
    }

    /// The cost of sending a variable's value to each other host that reads it, behind the move where there is one.
    fn told(&self, weight: u64, host: usize, var: usize, carried: Option<usize>) -> u64 {
        let word = self.needs.readers[var].iter().fold(0u16, |word, reader| word | 1 << self.at(*reader));
        self.sent(weight, host, word, carried)
    }

    /// The host to which a value rides that is given at a place of a block. A host that is not the home and not trusted
    /// for what is left does not hold the right to go on.
    fn carried_at(&self, home: usize, block: &[Stmt], place: usize) -> Option<usize> {
        let (host, rest) = (self.at(block[place].id), &block[place + 1..]);
        if rest.is_empty() || self.at(rest[0].id) == host || host != home && !self.is_trusted_for_all(host, rest) {
            return None;
        }
        let (start, spot) = self.last_start(home, block, place + 1);
        let spot = (start..=place).fold(spot, |spot, place| self.next_spot(spot, &block[place..]));
        spot.straight_to(self.next_spot(spot, rest))
    }

    /// What a piece costs that is no walk.
    fn piece(&self, piece: &Piece) -> u64 {
        match *piece {
            Piece::Access { weight, statement, field } => self.field(weight, self.at(statement), field),
            Piece::Giving { weight, home, block, place, var } => {
                let carried = self.carried_at(self.at(home), block, place);
                self.told(weight, self.at(block[place].id), var, carried)
            }
            Piece::Passing { weight, statement, method, var } => {
                self.told(weight, self.at(statement), var, Some(self.home(method)))
            }
            Piece::Calling { weight, statement, method, kept } => {
                let (host, end) = (self.at(statement), self.found_end(method));
                let both = self.message(weight, host, self.home(method)) + self.message(weight, end, host);
                both + if kept { self.exchange(weight, end, host) } else { 0 }
            }
            Piece::Walk { .. } => 0,
            Piece::Ending { method } => self.message(1, self.found_end(method), self.home(method)),
        }
    }

    fn row(&self, row: &[Piece]) -> u64 {
        row.iter().map(|piece| self.piece(piece)).sum()
    }

    /// The last start of a walk up to a place at which its spot is known: one behind a statement whose host is trusted
    /// for the rest, or that of the block.
    fn last_start(&self, home: usize, block: &[Stmt], most: usize) -> (usize, Spot) {
        let known = |place: &usize| self.is_trusted_for_all(self.at(block[*place].id), &block[*place..]);
        match (0..most).rev().find(known) {
            Some(place) => (place + 1, Spot::on(self.at(block[place].id))),
            None => (0, Spot::on(home)),
        }
    }
}

/// The variable to which the statement before a place gives a value that the move of another one does not touch.
fn untouched(needs: &Needs, moved: usize, block: &[Stmt], place: usize) -> Option<usize> {
    let statement = &block[place.checked_sub(1)?];
    gives(statement).filter(|var| statement.id != moved && !needs.readers[*var].contains(&moved))
}

/// What a walk costs before and behind the move of a statement, with what others give than this one and what it does
/// not read. Both are gone over in step, from the last known spot up to the statement to where they meet behind it.
fn walk_change(before: &Costs, after: &Costs, weight: u64, home: usize, nested: bool, block: &[Stmt]) -> Change {
    let moved = after.moved.expect("a move").0;
    let place = block.partition_point(|statement| statement.id < moved);
    let same_from = place + usize::from(block.get(place).is_some_and(|statement| statement.id == moved));
    let (old_home, new_home) = (before.at(home), after.at(home));
    let (start, mut first) = before.last_start(old_home, block, if home == moved { 0 } else { place });
    let mut second = if start == 0 { Spot::on(new_home) } else { first };
    let mut change = Change::default();
    if nested {
        change.before += before.message(weight, before.end_of(old_home, block), old_home);
        change.after += after.message(weight, after.end_of(new_home, block), new_home);
    }
    let give = |change: &mut Change, place: usize, one: (usize, Option<usize>), other: (usize, Option<usize>)| {
        if one != other {
            if let Some(var) = untouched(before.needs, moved, block, place) {
                change.before += before.told(weight, one.0, var, one.1);
                change.after += after.told(weight, other.0, var, other.1);
            }
        }
    };
    for place in start..block.len() {
        if place >= same_from && first == second {
            return change;
        }
        let (next, then) = (before.next_spot(first, &block[place..]), after.next_spot(second, &block[place..]));
        let (one, other) = ((first.host, first.straight_to(next)), (second.host, second.straight_to(then)));
        give(&mut change, place, one, other);
        change.before += before.move_on(weight, first, next);
        change.after += after.move_on(weight, second, then);
        (first, second) = (next, then);
    }
    give(&mut change, block.len(), (first.host, None), (second.host, None));
    change.before += before.leave(weight, first);
    change.after += after.leave(weight, second);
    change
}

fn walks_change(before: &Costs, after: &Costs, row: &[Piece]) -> Change {
    let mut total = Change::default();
    for piece in row {
        if let Piece::Walk { weight, home, nested, block } = *piece {
            let one = walk_change(before, after, weight, home, nested, block);
            total.before += one.before;
            total.after += one.after;
        }
    }
    total
}

/// The plan to which passes of moves come.
fn lowered(program: &Program, needs: &Needs, hosts: &Hosts, allowed: &Allowed, start: (Plan, u64)) -> (Plan, u64) {
    let index = Index::of(program, needs, allowed.fields.len(), allowed.statements.len());
    let (mut plan, mut cost) = start;
    loop {
        let before = cost;
        for (number, word) in allowed.fields.iter().enumerate() {
            let row = &index.fields[number];
            let mut known = None;
            for host in (0..hosts.hosts.len()).filter(|host| word >> host & 1 == 1) {
                let old = plan.fields[number];
                if old == host {
                    continue;
                }
                let was = known.unwrap_or_else(|| counted(program, needs, hosts, &plan, None).row(row));
                plan.fields[number] = host;
                let now = counted(program, needs, hosts, &plan, None).row(row);
                if now < was {
                    cost = cost + now - was;
                    known = Some(now);
                } else {
                    plan.fields[number] = old;
                    known = Some(was);
                }
            }
        }
        for (number, word) in allowed.statements.iter().enumerate() {
            let row = &index.statements[number];
            let mut known = None;
            for host in (0..hosts.hosts.len()).filter(|host| word >> host & 1 == 1) {
                if plan.statements[number] == host {
                    continue;
                }
                let old = counted(program, needs, hosts, &plan, None);
                let new = counted(program, needs, hosts, &plan, Some((number, host)));
                let was = known.unwrap_or_else(|| old.row(row));
                let now = new.row(row);
                let walks = walks_change(&old, &new, row);
                known = Some(was);
                if now + walks.after < was + walks.before {
                    cost = cost + now + walks.after - was - walks.before;
                    known = Some(now);
                    plan.statements[number] = host;
                }
            }
        }
        if cost == before {
            return (plan, cost);
        }
    }
}

fn counted<'a>(
    program: &'a Program,
    needs: &'a Needs,
    hosts: &'a Hosts,
    plan: &'a Plan,
    moved: Option<(usize, usize)>,
) -> Costs<'a> {
    Costs { program, needs, hosts, plan, reading: Vec::new(), ends: Vec::new(), moved }
}

// ---- the report

fn push_places(text: &mut String, hosts: &Hosts, word: u16, at: usize) {
    text.push_str(" may");
    for (place, host) in hosts.hosts.iter().enumerate() {
        if word >> place & 1 == 1 {
            text.push(' ');
            text.push_str(&host.name);
        }
    }
    text.push_str(" at ");
    text.push_str(&hosts.hosts[at].name);
    text.push('\n');
}

fn report(program: &Program, hosts: &Hosts, allowed: &Allowed, plan: &Plan, cost: u64) -> String {
    let mut text = format!(
        "accepted {} fields {} methods {} statements\n",
        program.fields.len(),
        program.methods.len(),
        program.lines.len()
    );
    for ((field, word), at) in program.fields.iter().zip(&allowed.fields).zip(&plan.fields) {
        let _ = write!(text, "field {}", field.name);
        push_places(&mut text, hosts, *word, *at);
    }
    for (id, line) in program.lines.iter().enumerate() {
        let _ = write!(text, "statement {id} line {line}");
        push_places(&mut text, hosts, allowed.statements[id], plan.statements[id]);
    }
    let _ = writeln!(text, "cost {cost}");
    text
}

fn why_no_tokens(why: LexError) -> Stop {
    match why {
        LexError::BadByte(at) => program_stop(format!("bad byte at {at}")),
        LexError::BadNumber(at) => program_stop(format!("bad number at {at}")),
        LexError::TooLong => program_stop("too long"),
    }
}

fn why_no_program(why: ParseError) -> Stop {
    match why {
        ParseError::Unexpected(at) => program_stop(format!("unexpected token {at}")),
        ParseError::TooDeep => program_stop("nested past 64"),
        ParseError::TooMany(what) => {
            let name = match what {
                What::Fields => "fields",
                What::Methods => "methods",
                What::Parameters => "parameters",
                What::Locals => "locals",
                What::Statements => "statements",
                What::Nodes => "expression nodes",
                What::Elements => "array elements",
            };
            program_stop(format!("too many {name}"))
        }
    }
}

fn load(name: &str) -> Result<Vec<u8>, Stop> {
    std::fs::read(name).map_err(|why| match why.kind() {
        std::io::ErrorKind::NotFound => Stop(4, format!("{name}: no such file")),
        _ => Stop(6, format!("file fault: {name}")),
    })
}

/// A program with the plan that is chosen for it.
struct Placed {
    program: Program,
    hosts: Hosts,
    needs: Needs,
    allowed: Allowed,
    plan: Plan,
    cost: u64,
}

fn placed(program: &[u8], hosts: &[u8]) -> Result<Placed, Stop> {
    let tokens = lex(program).map_err(why_no_tokens)?;
    let draft = parse(&tokens).map_err(why_no_program)?;
    let (principals, hosts) = read_hosts(hosts)?;
    let mut program = resolve(&draft, &principals)?;
    let found = check(&mut program, &principals)?;
    let needs = needs_of(&principals, &program, &found);
    let allowed = allowed_on(&program, &needs, &hosts)?;
    let start = cheapest_plan(&program, &needs, &hosts, &allowed);
    let (plan, cost) = lowered(&program, &needs, &hosts, &allowed, start);
    Ok(Placed { program, hosts, needs, allowed, plan, cost })
}

fn checked(program: &str, hosts: &str) -> Result<String, Stop> {
    let (program, hosts) = (load(program)?, load(hosts)?);
    let Placed { program, hosts, allowed, plan, cost, .. } = placed(&program, &hosts)?;
    Ok(report(&program, &hosts, &allowed, &plan, cost))
}

fn main() -> ExitCode {
    let words: Vec<String> = std::env::args().skip(1).collect();
    let result = match &words[..] {
        [command, program, hosts] if command == "check" => checked(program, hosts),
        _ => Err(Stop(2, "usage: check P H".to_owned())),
    };
    match result {
        Ok(text) => match std::io::stdout().write_all(text.as_bytes()) {
            Ok(()) => ExitCode::SUCCESS,
            Err(_) => ExitCode::from(7),
        },
        Err(Stop(status, line)) => {
            eprintln!("jifsplit: {line}");
            ExitCode::from(status)
        }
    }
}

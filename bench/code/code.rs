//! The code of all hosts in stock Rust, and the code that the programs here run.

/// Hosts of a host file.
pub const HOSTS: usize = 16;

const PRINCIPALS: usize = 63;

#[derive(Clone, Copy, Debug, PartialEq, Eq)]
pub struct HostId(pub u8);

#[derive(Clone, Copy, Debug, PartialEq, Eq)]
pub struct FieldId(pub u32);

#[derive(Clone, Copy, Debug, PartialEq, Eq, PartialOrd, Ord)]
pub struct VarId(pub u32);

#[derive(Clone, Copy, Debug, PartialEq, Eq)]
pub struct EntryId(pub u32);

#[derive(Clone, Copy, Debug, PartialEq, Eq, PartialOrd, Ord)]
pub struct SiteId(pub u32);

#[derive(Clone, Copy, Debug, PartialEq, Eq, PartialOrd, Ord)]
pub struct FrameId {
    pub site: SiteId,
    pub count: u64,
}

#[derive(Clone, Copy, Debug, PartialEq, Eq)]
pub struct RequestId {
    pub at: u32,
    pub count: u64,
}

/// The entry that ends the program.
pub const HALT: EntryId = EntryId(0);

/// Who may see and who trusts.
#[derive(Clone)]
pub struct Label {
    /// For each owner a word with a bit for each reader that the owner allows.
    rows: [u64; PRINCIPALS],
    /// A word with a bit for each principal that trusts.
    trust: u64,
}

impl Label {
    pub fn empty() -> Self {
        Label { rows: [u64::MAX; PRINCIPALS], trust: 0 }
    }

    /// The label of what these principals trust.
    #[allow(dead_code)]
    pub fn trusted(principals: u64) -> Self {
        Label { trust: principals, ..Label::empty() }
    }

    /// The label of what an owner lets these principals see.
    #[allow(dead_code)]
    pub fn owned(owner: usize, readers: u64) -> Self {
        let mut label = Label::empty();
        label.rows[owner] = readers;
        label
    }

    pub fn conf_flows(&self, to: &Label) -> bool {
        self.rows.iter().zip(&to.rows).all(|(row, other)| other & !row == 0)
    }

    pub fn integ_flows(&self, to: &Label) -> bool {
        to.trust & !self.trust == 0
    }

    pub fn is_trusted_by(&self, principals: u64) -> bool {
        principals & !self.trust == 0
    }
}

#[derive(Clone, Copy)]
#[allow(dead_code)]
pub enum BinOp {
    Or,
    And,
    Equal,
    NotEqual,
    Less,
    LessEqual,
    Greater,
    GreaterEqual,
    Add,
    Subtract,
    Multiply,
    Divide,
    Remainder,
}

impl BinOp {
    pub fn value(self, left: i64, right: i64) -> i64 {
        match self {
            BinOp::Or => i64::from(left != 0 || right != 0),
            BinOp::And => i64::from(left != 0 && right != 0),
            BinOp::Equal => i64::from(left == right),
            BinOp::NotEqual => i64::from(left != right),
            BinOp::Less => i64::from(left < right),
            BinOp::LessEqual => i64::from(left <= right),
            BinOp::Greater => i64::from(left > right),
            BinOp::GreaterEqual => i64::from(left >= right),
            BinOp::Add => left.wrapping_add(right),
            BinOp::Subtract => left.wrapping_sub(right),
            BinOp::Multiply => left.wrapping_mul(right),
            BinOp::Divide if right == 0 => 0,
            BinOp::Divide => left.wrapping_div(right),
            BinOp::Remainder if right == 0 => 0,
            BinOp::Remainder => left.wrapping_rem(right),
        }
    }
}

/// A node of an expression in postfix order.
#[derive(Clone, Copy)]
#[allow(dead_code)]
pub enum Node {
    Number(i64),
    Var(VarId),
    Temp(u32),
    Not,
    Negate,
    Binary(BinOp),
}

#[allow(dead_code)]
pub enum Op {
    Read(FieldId, Vec<Node>),
    Let(VarId, Vec<Node>),
    Put(FieldId, Vec<Node>, Vec<Node>),
    Send(VarId, HostId),
    Frame(SiteId),
    Arg(VarId, Vec<Node>),
    Pass(VarId, HostId),
    Push(EntryId),
    Ask(EntryId, HostId),
    Go(EntryId, HostId),
    Call(EntryId, HostId),
    Ret(VarId, Vec<Node>),
    Back,
    Branch(Vec<Node>, u32),
}

pub struct Instr {
    /// The place of its label among the code's labels. Only a world reads it.
    #[allow(dead_code)]
    pub label: u32,
    pub op: Op,
}

pub struct CodeHost {
    pub label: Label,
}

pub struct CodeField {
    pub label: u32,
    pub host: HostId,
}

pub struct CodeVar {
    pub label: u32,
}

#[derive(Clone, Copy)]
pub struct Entry {
    pub host: HostId,
    pub at: u32,
    pub label: u32,
    /// A word with a bit for each principal who has to trust a host that enters here.
    pub need: u64,
}

pub struct Code {
    pub hosts: Vec<CodeHost>,
    pub labels: Vec<Label>,
    pub fields: Vec<CodeField>,
    pub vars: Vec<CodeVar>,
    pub entries: Vec<Entry>,
    /// The host of each call site, from site 1 on.
    pub sites: Vec<HostId>,
    pub parts: Vec<Vec<Instr>>,
    pub root: HostId,
    pub main: EntryId,
}

impl Code {
    pub fn host(&self, host: HostId) -> Option<&CodeHost> {
        self.hosts.get(host.0 as usize)
    }

    pub fn field(&self, field: FieldId) -> Option<&CodeField> {
        self.fields.get(field.0 as usize)
    }

    pub fn var(&self, var: VarId) -> Option<&CodeVar> {
        self.vars.get(var.0 as usize)
    }

    pub fn entry(&self, entry: EntryId) -> Option<Entry> {
        self.entries.get(entry.0 as usize).copied()
    }

    pub fn label(&self, label: u32) -> Option<&Label> {
        self.labels.get(label as usize)
    }

    pub fn part(&self, host: HostId) -> &[Instr] {
        self.parts.get(host.0 as usize).map_or(&[], Vec::as_slice)
    }

    pub fn instruction(&self, host: HostId, at: u32) -> Option<&Instr> {
        self.part(host).get(at as usize)
    }
}

pub const A: HostId = HostId(0);

pub const B: HostId = HostId(1);

/// The field of A.
pub const X: FieldId = FieldId(0);

/// The field of B.
pub const Y: FieldId = FieldId(1);

/// The code: a loop of five instructions on A, one of which asks B.
pub fn loop_code() -> Code {
    let number = |n| vec![Node::Number(n)];
    let and_one = |node| vec![node, Node::Number(1), Node::Binary(BinOp::Add)];
    let ops = vec![
        Op::Read(X, number(0)),
        Op::Put(X, number(0), and_one(Node::Temp(0))),
        Op::Let(VarId(0), and_one(Node::Var(VarId(0)))),
        Op::Put(Y, number(0), number(7)),
        Op::Branch(number(0), 0),
        Op::Back,
    ];
    let entry = Entry { host: A, at: 0, label: 0, need: 0 };
    Code {
        hosts: vec![CodeHost { label: Label::empty() }, CodeHost { label: Label::empty() }],
        labels: vec![Label::empty()],
        fields: vec![CodeField { label: 0, host: A }, CodeField { label: 0, host: B }],
        vars: vec![CodeVar { label: 0 }],
        entries: vec![entry, entry],
        sites: vec![],
        parts: vec![ops.into_iter().map(|op| Instr { label: 0, op }).collect(), vec![]],
        root: A,
        main: EntryId(1),
    }
}

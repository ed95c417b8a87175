//! The lexer and the parser in stock Rust, to compare with: the same descent over the same tokens, with the same limits
//! and the same drafts.

// ---- tokens

#[derive(Debug, Clone, Copy, PartialEq, Eq)]
pub enum Word {
    Int,
    Void,
    If,
    Else,
    While,
    Return,
    Where,
    Authority,
    Declassify,
    Endorse,
}

#[derive(Debug, Clone, Copy, PartialEq, Eq)]
pub enum Symbol {
    LeftBrace,
    RightBrace,
    LeftParenthesis,
    RightParenthesis,
    LeftBracket,
    RightBracket,
    Semicolon,
    Colon,
    Comma,
    Question,
    Assign,
    Equal,
    NotEqual,
    Less,
    LessOrEqual,
    Greater,
    GreaterOrEqual,
    Plus,
    Minus,
    Star,
    Slash,
    Percent,
    Not,
    And,
    Or,
}

#[derive(Debug)]
pub enum TokenKind {
    Name(String),
    Number(i64),
    Word(Word),
    Symbol(Symbol),
}

#[derive(Debug)]
pub struct Token {
    pub kind: TokenKind,
    pub at: u32,
    pub line: u32,
}

const WORDS: [(&str, Word); 10] = [
    ("int", Word::Int),
    ("void", Word::Void),
    ("if", Word::If),
    ("else", Word::Else),
    ("while", Word::While),
    ("return", Word::Return),
    ("where", Word::Where),
    ("authority", Word::Authority),
    ("declassify", Word::Declassify),
    ("endorse", Word::Endorse),
];

#[derive(Debug)]
pub enum LexError {
    BadByte(usize),
    BadNumber(usize),
    TooLong,
}

const PROGRAM_BYTES: usize = 1_048_576;

fn is_in_word(byte: u8) -> bool {
    byte.is_ascii_alphanumeric() || byte == b'_'
}

/// How many bytes from the front have what is asked.
fn run(rest: &[u8], asked: impl Fn(u8) -> bool) -> usize {
    rest.iter().take_while(|byte| asked(**byte)).count()
}

/// How many bytes the comment has with which the text begins, 0 where there is none; `None` where it is never closed.
fn comment(rest: &[u8]) -> Option<usize> {
    if rest.starts_with(b"//") {
        Some(run(rest, |byte| byte != b'\n'))
    } else if rest.starts_with(b"/*") {
        rest[2..].windows(2).position(|pair| pair == b"*/").map(|inside| inside + 4)
    } else {
        Some(0)
    }
}

/// The symbol with which the text begins, and its length.
fn symbol(rest: &[u8]) -> Option<(Symbol, usize)> {
    let second = rest.get(1);
    let one = match rest[0] {
        b'=' if second == Some(&b'=') => return Some((Symbol::Equal, 2)),
        b'!' if second == Some(&b'=') => return Some((Symbol::NotEqual, 2)),
        b'<' if second == Some(&b'=') => return Some((Symbol::LessOrEqual, 2)),
        b'>' if second == Some(&b'=') => return Some((Symbol::GreaterOrEqual, 2)),
        b'&' if second == Some(&b'&') => return Some((Symbol::And, 2)),
        b'|' if second == Some(&b'|') => return Some((Symbol::Or, 2)),
        b'{' => Symbol::LeftBrace,
        b'}' => Symbol::RightBrace,
        b'(' => Symbol::LeftParenthesis,
        b')' => Symbol::RightParenthesis,
        b'[' => Symbol::LeftBracket,
        b']' => Symbol::RightBracket,
        b';' => Symbol::Semicolon,
        b':' => Symbol::Colon,
        b',' => Symbol::Comma,
        b'?' => Symbol::Question,
        b'=' => Symbol::Assign,
        b'<' => Symbol::Less,
        b'>' => Symbol::Greater,
        b'+' => Symbol::Plus,
        b'-' => Symbol::Minus,
        b'*' => Symbol::Star,
        b'/' => Symbol::Slash,
        b'%' => Symbol::Percent,
        b'!' => Symbol::Not,
        _ => return None,
    };
    Some((one, 1))
}

/// The number with which the text begins, and its length.
fn number(rest: &[u8]) -> Option<(TokenKind, usize)> {
    let len = run(rest, |byte| byte.is_ascii_digit());
    if rest.get(len).is_some_and(|byte| is_in_word(*byte)) {
        return None;
    }
    let digits = std::str::from_utf8(&rest[..len]).ok()?;
    Some((TokenKind::Number(digits.parse().ok()?), len))
}

/// The name or the keyword with which the text begins, and its length.
fn word(rest: &[u8]) -> (TokenKind, usize) {
    let len = run(rest, is_in_word);
    let name = std::str::from_utf8(&rest[..len]).expect("ASCII");
    match WORDS.iter().find(|(word, _)| *word == name) {
        Some((_, word)) => (TokenKind::Word(*word), len),
        None => (TokenKind::Name(name.to_owned()), len),
    }
}

/// The tokens of a text.
pub fn lex(text: &[u8]) -> Result<Vec<Token>, LexError> {
    if text.len() > PROGRAM_BYTES {
        return Err(LexError::TooLong);
    }
    let mut tokens = Vec::new();
    let (mut at, mut line) = (0, 1);
    while let Some(byte) = text.get(at) {
        let rest = &text[at..];
        let skipped = comment(rest).ok_or(LexError::BadByte(at))?;
        if skipped > 0 {
            line += rest[..skipped].iter().filter(|byte| **byte == b'\n').count() as u32;
            at += skipped;
            continue;
        }
        let (kind, len) = match byte {
            b' ' | b'\t' | b'\r' => {
                at += 1;
                continue;
            }
            b'\n' => {
                at += 1;
                line += 1;
                continue;
            }
            b'0'..=b'9' => number(rest).ok_or(LexError::BadNumber(at))?,
            byte if is_in_word(*byte) => word(rest),
            _ => {
                let (symbol, len) = symbol(rest).ok_or(LexError::BadByte(at))?;
                (TokenKind::Symbol(symbol), len)
            }
        };
        tokens.push(Token { kind, at: at as u32, line });
        at += len;
    }
    Ok(tokens)
}

// ---- drafts

pub struct Draft {
    pub fields: Vec<FieldDraft>,
    pub methods: Vec<MethodDraft>,
}

pub struct NameDraft {
    pub text: String,
    pub at: u32,
}

pub struct LabelDraft {
    pub policies: Vec<PolicyDraft>,
    pub trust: Option<Vec<NameDraft>>,
}

pub struct PolicyDraft {
    pub owner: NameDraft,
    pub readers: Vec<NameDraft>,
}

pub struct FieldDraft {
    pub label: LabelDraft,
    pub name: NameDraft,
    pub size: u32,
    pub array: bool,
    pub first: i64,
}

pub struct MethodDraft {
    pub result: Option<LabelDraft>,
    pub name: NameDraft,
    pub begin: LabelDraft,
    pub params: Vec<ParamDraft>,
    pub authority: Vec<NameDraft>,
    pub line: u32,
    pub body: Vec<StmtDraft>,
}

pub struct ParamDraft {
    pub label: LabelDraft,
    pub name: NameDraft,
}

pub struct StmtDraft {
    pub at: u32,
    pub line: u32,
    pub kind: StmtKindDraft,
}

pub enum StmtKindDraft {
    Declare { label: Option<LabelDraft>, name: NameDraft, value: ExprDraft },
    Assign { name: NameDraft, value: ExprDraft },
    AssignElement { array: NameDraft, index: ExprDraft, value: ExprDraft },
    If { guard: ExprDraft, yes: Vec<StmtDraft>, no: Vec<StmtDraft> },
    While { guard: ExprDraft, body: Vec<StmtDraft> },
    Call { method: NameDraft, args: Vec<ExprDraft>, into: Option<NameDraft> },
    Return { value: ExprDraft },
}

#[derive(Clone, Copy)]
pub enum BinOp {
    Or,
    And,
    Equal,
    NotEqual,
    Less,
    LessEqual,
    Greater,
    GreaterEqual,
    Add,
    Subtract,
    Multiply,
    Divide,
    Remainder,
}

pub enum ExprDraft {
    Number(i64),
    Name(NameDraft),
    Element(NameDraft, Box<ExprDraft>),
    Not(Box<ExprDraft>),
    Negate(Box<ExprDraft>),
    Binary(BinOp, Box<ExprDraft>, Box<ExprDraft>),
    Declassify(Box<ExprDraft>, LabelDraft),
    Endorse(Box<ExprDraft>, LabelDraft),
}

// ---- the parser

#[derive(Debug)]
pub enum What {
    Fields,
    Methods,
    Parameters,
    Locals,
    Statements,
    Nodes,
    Elements,
}

#[derive(Debug)]
pub enum ParseError {
    Unexpected(u32),
    TooDeep,
    TooMany(What),
}

pub type Parsed<T> = Result<T, ParseError>;

#[derive(Default)]
struct Counts {
    methods: usize,
    statements: usize,
    parameters: usize,
    variables: usize,
    nodes: usize,
    fields: usize,
    elements: u64,
}

struct Cursor<'a> {
    rest: &'a [Token],
    at: u32,
    counts: Counts,
}

fn one_more(count: &mut usize, most: usize, what: What) -> Parsed<()> {
    if *count >= most {
        return Err(ParseError::TooMany(what));
    }
    *count += 1;
    Ok(())
}

fn operator_of(symbol: Symbol) -> Option<(BinOp, u32)> {
    Some(match symbol {
        Symbol::Or => (BinOp::Or, 0),
        Symbol::And => (BinOp::And, 1),
        Symbol::Equal => (BinOp::Equal, 2),
        Symbol::NotEqual => (BinOp::NotEqual, 2),
        Symbol::Less => (BinOp::Less, 3),
        Symbol::LessOrEqual => (BinOp::LessEqual, 3),
        Symbol::Greater => (BinOp::Greater, 3),
        Symbol::GreaterOrEqual => (BinOp::GreaterEqual, 3),
        Symbol::Plus => (BinOp::Add, 4),
        Symbol::Minus => (BinOp::Subtract, 4),
        Symbol::Star => (BinOp::Multiply, 5),
        Symbol::Slash => (BinOp::Divide, 5),
        Symbol::Percent => (BinOp::Remainder, 5),
        _ => return None,
    })
}

impl<'a> Cursor<'a> {
    fn next(&self) -> Option<&'a Token> {
        self.rest.first()
    }

    fn unexpected<T>(&self) -> Parsed<T> {
        Err(ParseError::Unexpected(self.at))
    }

    fn is_next(&self, symbol: Symbol) -> bool {
        matches!(self.next(), Some(Token { kind: TokenKind::Symbol(own), .. }) if *own == symbol)
    }

    fn is_word_next(&self, word: Word) -> bool {
        matches!(self.next(), Some(Token { kind: TokenKind::Word(own), .. }) if *own == word)
    }

    fn line(&self) -> u32 {
        self.next().map_or(0, |token| token.line)
    }

    fn pass(&mut self) {
        self.rest = &self.rest[1..];
        self.at += 1;
    }

    fn expect(&mut self, symbol: Symbol) -> Parsed<()> {
        if !self.is_next(symbol) {
            return self.unexpected();
        }
        self.pass();
        Ok(())
    }

    fn expect_word(&mut self, word: Word) -> Parsed<()> {
        if !self.is_word_next(word) {
            return self.unexpected();
        }
        self.pass();
        Ok(())
    }

    fn open(&mut self, nesting: usize) -> Parsed<()> {
        if nesting > 64 {
            return Err(ParseError::TooDeep);
        }
        self.pass();
        Ok(())
    }

    fn node(&mut self, nesting: usize) -> Parsed<()> {
        if nesting > 64 {
            return Err(ParseError::TooDeep);
        }
        one_more(&mut self.counts.nodes, 256, What::Nodes)?;
        self.pass();
        Ok(())
    }

    fn statement_begins(&mut self) -> Parsed<()> {
        one_more(&mut self.counts.statements, 4096, What::Statements)?;
        self.counts.nodes = 0;
        self.pass();
        Ok(())
    }

    fn method_begins(&mut self) -> Parsed<()> {
        one_more(&mut self.counts.methods, 128, What::Methods)?;
        self.counts.parameters = 0;
        self.counts.variables = 0;
        self.statement_begins()
    }

    fn field_begins(&mut self, elements: u64) -> Parsed<()> {
        one_more(&mut self.counts.fields, 256, What::Fields)?;
        self.elements_begin(elements)
    }

    fn elements_begin(&mut self, elements: u64) -> Parsed<()> {
        if elements > 65_536 || self.counts.elements + elements > 262_144 {
            return Err(ParseError::TooMany(What::Elements));
        }
        self.counts.elements += elements;
        self.pass();
        Ok(())
    }

    fn name_draft(&self, name: &str) -> NameDraft {
        NameDraft { text: name.to_owned(), at: self.at }
    }

    fn name(&mut self) -> Parsed<NameDraft> {
        let Some(Token { kind: TokenKind::Name(name), .. }) = self.next() else {
            return self.unexpected();
        };
        let draft = self.name_draft(name);
        self.pass();
        Ok(draft)
    }

    fn names(&mut self) -> Parsed<Vec<NameDraft>> {
        let mut names = vec![self.name()?];
        while self.is_next(Symbol::Comma) {
            self.pass();
            names.push(self.name()?);
        }
        Ok(names)
    }

    fn any_names(&mut self) -> Parsed<Vec<NameDraft>> {
        match self.next() {
            Some(Token { kind: TokenKind::Name(_), .. }) => self.names(),
            _ => Ok(Vec::new()),
        }
    }

    fn label(&mut self) -> Parsed<LabelDraft> {
        self.expect(Symbol::LeftBrace)?;
        self.parts()
    }

    fn parts(&mut self) -> Parsed<LabelDraft> {
        let mut policies = Vec::new();
        if self.is_next(Symbol::RightBrace) {
            self.pass();
            return Ok(LabelDraft { policies, trust: None });
        }
        while !self.is_next(Symbol::Question) {
            let owner = self.name()?;
            self.expect(Symbol::Colon)?;
            let readers = self.any_names()?;
            policies.push(PolicyDraft { owner, readers });
            if !self.is_next(Symbol::Semicolon) {
                self.expect(Symbol::RightBrace)?;
                return Ok(LabelDraft { policies, trust: None });
            }
            self.pass();
        }
        self.pass();
        self.expect(Symbol::Colon)?;
        let members = self.any_names()?;
        self.expect(Symbol::RightBrace)?;
        Ok(LabelDraft { policies, trust: Some(members) })
    }

    fn expression(&mut self, least: u32, depth: usize) -> Parsed<ExprDraft> {
        let mut left = self.operand(depth, depth)?;
        while let Some(Token { kind: TokenKind::Symbol(symbol), .. }) = self.next() {
            let Some((operator, level)) = operator_of(*symbol) else {
                break;
            };
            if level < least {
                break;
            }
            self.node(depth)?;
            let right = self.expression(level + 1, depth)?;
            left = ExprDraft::Binary(operator, Box::new(left), Box::new(right));
        }
        Ok(left)
    }

    fn up_to(&mut self, ending: Symbol, depth: usize) -> Parsed<ExprDraft> {
        let value = self.expression(0, depth)?;
        self.expect(ending)?;
        Ok(value)
    }

    fn operand(&mut self, depth: usize, inner: usize) -> Parsed<ExprDraft> {
        let Some(token) = self.next() else {
            return self.unexpected();
        };
        match &token.kind {
            TokenKind::Number(number) => {
                self.node(inner)?;
                Ok(ExprDraft::Number(*number))
            }
            TokenKind::Name(name) => {
                let name = self.name_draft(name);
                self.node(inner)?;
                if !self.is_next(Symbol::LeftBracket) {
                    return Ok(ExprDraft::Name(name));
                }
                self.open(inner + 1)?;
                let index = self.up_to(Symbol::RightBracket, inner + 1)?;
                Ok(ExprDraft::Element(name, Box::new(index)))
            }
            TokenKind::Symbol(Symbol::LeftParenthesis) => {
                self.open(inner + 1)?;
                self.up_to(Symbol::RightParenthesis, inner + 1)
            }
            TokenKind::Symbol(Symbol::Not) => {
                self.node(inner + 1)?;
                Ok(ExprDraft::Not(Box::new(self.operand(depth, inner + 1)?)))
            }
            TokenKind::Symbol(Symbol::Minus) => {
                self.node(inner + 1)?;
                Ok(ExprDraft::Negate(Box::new(self.operand(depth, inner + 1)?)))
            }
            TokenKind::Word(word @ (Word::Declassify | Word::Endorse)) => {
                self.node(inner + 1)?;
                self.expect(Symbol::LeftParenthesis)?;
                let value = Box::new(self.up_to(Symbol::Comma, inner + 1)?);
                let label = self.label()?;
                self.expect(Symbol::RightParenthesis)?;
                Ok(match word {
                    Word::Declassify => ExprDraft::Declassify(value, label),
                    _ => ExprDraft::Endorse(value, label),
                })
            }
            _ => self.unexpected(),
        }
    }

    fn args(&mut self, depth: usize) -> Parsed<Vec<ExprDraft>> {
        let mut args = Vec::new();
        if self.is_next(Symbol::RightParenthesis) {
            self.pass();
            return Ok(args);
        }
        loop {
            args.push(self.expression(0, depth)?);
            if !self.is_next(Symbol::Comma) {
                self.expect(Symbol::RightParenthesis)?;
                return Ok(args);
            }
            self.pass();
        }
    }

    fn statements(&mut self, depth: usize) -> Parsed<Vec<StmtDraft>> {
        let mut drafts = Vec::new();
        while let Some(token) = self.next() {
            let at = self.at;
            let kind = match &token.kind {
                TokenKind::Name(name) => self.named(name, depth)?,
                TokenKind::Word(Word::Int) => self.local(depth)?,
                TokenKind::Word(Word::If) => self.branch(depth)?,
                TokenKind::Word(Word::While) => {
                    self.statement_begins()?;
                    let (guard, body) = self.guarded(depth)?;
                    StmtKindDraft::While { guard, body }
                }
                _ => break,
            };
            drafts.push(StmtDraft { at, line: token.line, kind });
        }
        Ok(drafts)
    }

    fn guarded(&mut self, depth: usize) -> Parsed<(ExprDraft, Vec<StmtDraft>)> {
        self.expect(Symbol::LeftParenthesis)?;
        let guard = self.up_to(Symbol::RightParenthesis, depth)?;
        Ok((guard, self.braced(depth + 1)?))
    }

    fn braced(&mut self, depth: usize) -> Parsed<Vec<StmtDraft>> {
        if !self.is_next(Symbol::LeftBrace) {
            return self.unexpected();
        }
        self.open(depth)?;
        let block = self.statements(depth)?;
        self.expect(Symbol::RightBrace)?;
        Ok(block)
    }

    fn branch(&mut self, depth: usize) -> Parsed<StmtKindDraft> {
        self.statement_begins()?;
        let (guard, yes) = self.guarded(depth)?;
        let mut no = Vec::new();
        if self.is_word_next(Word::Else) {
            self.pass();
            no = self.braced(depth + 1)?;
        }
        Ok(StmtKindDraft::If { guard, yes, no })
    }

    fn local(&mut self, depth: usize) -> Parsed<StmtKindDraft> {
        if self.counts.statements >= 4096 {
            return Err(ParseError::TooMany(What::Statements));
        }
        one_more(&mut self.counts.variables, 256, What::Locals)?;
        self.statement_begins()?;
        let label = if self.is_next(Symbol::LeftBrace) { Some(self.label()?) } else { None };
        let name = self.name()?;
        self.expect(Symbol::Assign)?;
        let value = self.up_to(Symbol::Semicolon, depth)?;
        Ok(StmtKindDraft::Declare { label, name, value })
    }

    fn named(&mut self, name: &str, depth: usize) -> Parsed<StmtKindDraft> {
        let name = self.name_draft(name);
        self.statement_begins()?;
        if self.is_next(Symbol::Assign) {
            self.pass();
            return self.assignment(name, depth);
        }
        if self.is_next(Symbol::LeftBracket) {
            self.pass();
            let index = self.up_to(Symbol::RightBracket, depth)?;
            self.expect(Symbol::Assign)?;
            let value = self.up_to(Symbol::Semicolon, depth)?;
            return Ok(StmtKindDraft::AssignElement { array: name, index, value });
        }
        self.expect(Symbol::LeftParenthesis)?;
        let args = self.args(depth)?;
        self.expect(Symbol::Semicolon)?;
        Ok(StmtKindDraft::Call { method: name, args, into: None })
    }

    fn assignment(&mut self, name: NameDraft, depth: usize) -> Parsed<StmtKindDraft> {
        if let [
            Token { kind: TokenKind::Name(method), .. },
            Token { kind: TokenKind::Symbol(Symbol::LeftParenthesis), .. },
            ..,
        ] = self.rest
        {
            let method = self.name_draft(method);
            self.node(depth)?;
            self.counts.nodes = 0;
            self.pass();
            let args = self.args(depth)?;
            self.expect(Symbol::Semicolon)?;
            return Ok(StmtKindDraft::Call { method, args, into: Some(name) });
        }
        let value = self.up_to(Symbol::Semicolon, depth)?;
        Ok(StmtKindDraft::Assign { name, value })
    }

    fn params(&mut self) -> Parsed<Vec<ParamDraft>> {
        let mut params = Vec::new();
        if self.is_next(Symbol::RightParenthesis) {
            self.pass();
            return Ok(params);
        }
        loop {
            if !self.is_word_next(Word::Int) {
                return self.unexpected();
            }
            one_more(&mut self.counts.parameters, 8, What::Parameters)?;
            one_more(&mut self.counts.variables, 256, What::Locals)?;
            self.pass();
            let label = self.label()?;
            let name = self.name()?;
            params.push(ParamDraft { label, name });
            if !self.is_next(Symbol::Comma) {
                self.expect(Symbol::RightParenthesis)?;
                return Ok(params);
            }
            self.pass();
        }
    }

    fn authority(&mut self) -> Parsed<Vec<NameDraft>> {
        if self.is_next(Symbol::LeftBrace) {
            self.pass();
            return Ok(Vec::new());
        }
        self.expect_word(Word::Where)?;
        self.expect_word(Word::Authority)?;
        self.expect(Symbol::LeftParenthesis)?;
        let names = self.names()?;
        self.expect(Symbol::RightParenthesis)?;
        self.expect(Symbol::LeftBrace)?;
        Ok(names)
    }

    fn method(
        &mut self,
        result: Option<LabelDraft>,
        name: NameDraft,
        begin: LabelDraft,
        line: u32,
    ) -> Parsed<MethodDraft> {
        self.expect(Symbol::LeftParenthesis)?;
        let params = self.params()?;
        let authority = self.authority()?;
        let mut body = self.statements(0)?;
        if self.is_word_next(Word::Return) {
            let (at, line) = (self.at, self.line());
            self.statement_begins()?;
            let value = self.up_to(Symbol::Semicolon, 0)?;
            body.push(StmtDraft { at, line, kind: StmtKindDraft::Return { value } });
        }
        self.expect(Symbol::RightBrace)?;
        Ok(MethodDraft { result, name, begin, params, authority, line, body })
    }

    fn number(&mut self) -> Parsed<i64> {
        let Some(Token { kind: TokenKind::Number(number), .. }) = self.next() else {
            return self.unexpected();
        };
        self.pass();
        Ok(*number)
    }

    fn field(&mut self, label: LabelDraft, name: NameDraft) -> Parsed<FieldDraft> {
        let (mut size, mut array, mut first) = (1, false, 0);
        if self.is_next(Symbol::LeftBracket) {
            array = true;
            self.field_begins(0)?;
            let Some(Token { kind: TokenKind::Number(number @ 1..), .. }) = self.next() else {
                return self.unexpected();
            };
            self.elements_begin(*number as u64)?;
            size = *number as u32;
            self.expect(Symbol::RightBracket)?;
            self.expect(Symbol::Semicolon)?;
        } else if self.is_next(Symbol::Assign) {
            self.field_begins(1)?;
            let negative = self.is_next(Symbol::Minus);
            if negative {
                self.pass();
            }
            let number = self.number()?;
            first = if negative { -number } else { number };
            self.expect(Symbol::Semicolon)?;
        } else if self.is_next(Symbol::Semicolon) {
            self.field_begins(1)?;
        } else {
            return self.unexpected();
        }
        Ok(FieldDraft { label, name, size, array, first })
    }

    fn items(&mut self) -> Parsed<Draft> {
        let (mut fields, mut methods) = (Vec::new(), Vec::new());
        while !self.rest.is_empty() {
            let line = self.line();
            if self.is_word_next(Word::Void) {
                self.method_begins()?;
                let name = self.name()?;
                let begin = self.label()?;
                methods.push(self.method(None, name, begin, line)?);
                continue;
            }
            self.expect_word(Word::Int)?;
            let label = self.label()?;
            let name = self.name()?;
            if self.is_next(Symbol::LeftBrace) {
                self.method_begins()?;
                let begin = self.parts()?;
                methods.push(self.method(Some(label), name, begin, line)?);
            } else {
                fields.push(self.field(label, name)?);
            }
        }
        Ok(Draft { fields, methods })
    }
}

#[inline(never)]
pub fn parse(tokens: &[Token]) -> Parsed<Draft> {
    Cursor { rest: tokens, at: 0, counts: Counts::default() }.items()
}

/// The label that these tokens are.
pub fn parse_label(tokens: &[Token]) -> Parsed<LabelDraft> {
    let mut cursor = Cursor { rest: tokens, at: 0, counts: Counts::default() };
    let label = cursor.label()?;
    if !cursor.rest.is_empty() {
        return cursor.unexpected();
    }
    Ok(label)
}

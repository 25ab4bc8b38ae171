//! What is shown of a member set or a member, as a table and as JSON.

use crepedum::{Kind, Member, MemberSet, NameType, ShortImport};

use crate::json::Json;
use crate::lead::Lead;
use crate::table::aligned;
use crate::text::shown;

pub struct View<'a> {
    kind: &'static str,
    size: usize,
    rows: Vec<Row<'a>>,
}

struct Row<'a> {
    number: usize,
    list: Option<u32>,
    offset: usize,
    size: usize,
    member: Member<'a>,
    symbols: Vec<(Vec<u8>, Lead)>,
}

impl<'a> View<'a> {
    pub fn of_set(set: MemberSet<'a>) -> Self {
        let mut rows = Vec::new();
        for (index, listed) in set.members().enumerate() {
            let member = crepedum::read(listed.bytes).expect("a set has members");
            let list = listed.list.unwrap_or_default();
            let lead = |symbol: &[u8]| set.lookup(list, symbol).into();
            rows.push(Row {
                number: index + 1,
                list: listed.list,
                offset: listed.offset,
                size: listed.bytes.len(),
                symbols: leads(&member, lead),
                member,
            });
        }
        Self {
            kind: "set",
            size: set.bytes().len(),
            rows,
        }
    }

    pub fn of_member(bytes: &'a [u8], member: Member<'a>) -> Self {
        let lead = |symbol: &[u8]| match member {
            Member::ShortImport(_) => Lead::of_import(bytes, symbol),
            _ => Lead::Target,
        };
        let row = Row {
            number: 1,
            list: None,
            offset: 0,
            size: bytes.len(),
            symbols: leads(&member, lead),
            member,
        };
        Self {
            kind: "member",
            size: bytes.len(),
            rows: vec![row],
        }
    }

    pub fn table(&self) -> String {
        let head = [
            "member", "list", "bytes", "machine", "what", "symbol", "leads to",
        ];
        let lines: Vec<_> = self.rows.iter().flat_map(Row::lines).collect();
        aligned(head, &["member", "bytes"], &lines)
    }

    pub fn json(&self) -> Json {
        Json::Object(vec![
            ("kind", Json::text(self.kind)),
            ("size", Json::Number(self.size)),
            (
                "members",
                Json::List(self.rows.iter().map(Row::json).collect()),
            ),
        ])
    }
}

fn leads(member: &Member<'_>, lead: impl Fn(&[u8]) -> Lead) -> Vec<(Vec<u8>, Lead)> {
    let symbols = member.symbols().into_iter();
    symbols
        .map(|symbol| {
            let lead = lead(&symbol);
            (symbol, lead)
        })
        .collect()
}

impl Row<'_> {
    /// A line for each symbol; what belongs to the member stands in the first.
    fn lines(&self) -> Vec<[String; 7]> {
        let mut lines: Vec<[String; 7]> = Vec::new();
        for (symbol, lead) in &self.symbols {
            let mut line: [String; 7] = Default::default();
            line[5] = shown(symbol);
            line[6] = lead.to_string();
            lines.push(line);
        }
        if lines.is_empty() {
            lines.push(Default::default());
        }
        let list = self.list.map_or("-".into(), |list| list.to_string());
        lines[0][0] = self.number.to_string();
        lines[0][1] = list;
        lines[0][2] = self.size.to_string();
        lines[0][3] = self.member.machine().to_string();
        lines[0][4] = what(&self.member);
        lines
    }

    fn json(&self) -> Json {
        let list = self
            .list
            .map_or(Json::Null, |list| Json::Number(list as usize));
        let mut pairs = vec![
            ("number", Json::Number(self.number)),
            ("list", list),
            ("offset", Json::Number(self.offset)),
            ("size", Json::Number(self.size)),
            ("machine", Json::Text(self.member.machine().to_string())),
        ];
        pairs.extend(parts(&self.member));
        let symbol = |(symbol, lead): &(Vec<u8>, Lead)| {
            let mut pairs = vec![("symbol", Json::name(symbol))];
            pairs.extend(lead.json());
            Json::Object(pairs)
        };
        let symbols = self.symbols.iter().map(symbol).collect();
        pairs.push(("symbols", Json::List(symbols)));
        Json::Object(pairs)
    }
}

fn kind_name(kind: Kind) -> &'static str {
    match kind {
        Kind::Code => "code",
        Kind::Data => "data",
        Kind::Const => "const",
    }
}

fn type_name(name_type: NameType) -> &'static str {
    match name_type {
        NameType::Ordinal => "ordinal",
        NameType::Name => "name",
        NameType::NoPrefix => "noprefix",
        NameType::Undecorate => "undecorate",
        NameType::ExportAs => "exportas",
    }
}

/// What a member is, in words.
fn what(member: &Member<'_>) -> String {
    match *member {
        Member::ImportDescriptor { dll, .. } => format!("import descriptor of {}", shown(dll)),
        Member::NullImportDescriptor { stem: None, .. } => "null import descriptor".into(),
        Member::NullImportDescriptor {
            stem: Some(stem), ..
        } => {
            format!("null import descriptor of {}", shown(stem))
        }
        Member::NullThunk { stem, .. } => format!("null thunk of {}", shown(stem)),
        Member::ShortImport(short) => {
            let (kind, name_type) = (kind_name(short.kind), type_name(short.name_type));
            format!("import from {}: {kind}, by {name_type}", shown(short.dll))
        }
        Member::WeakExternal { target, .. } => format!("alias of {}", shown(target)),
    }
}

/// The layout, and the names and numbers that it has.
fn parts(member: &Member<'_>) -> Vec<(&'static str, Json)> {
    let layout = |layout| ("layout", Json::text(layout));
    match *member {
        Member::ImportDescriptor {
            whole_archive_compat,
            dll,
            stem,
            ..
        } => vec![
            layout("import descriptor"),
            ("dll", Json::name(dll)),
            ("stem", Json::name(stem)),
            ("whole_archive_compat", Json::Bool(whole_archive_compat)),
        ],
        Member::NullImportDescriptor { stem, .. } => vec![
            layout("null import descriptor"),
            ("stem", stem.map_or(Json::Null, Json::name)),
            ("whole_archive_compat", Json::Bool(stem.is_some())),
        ],
        Member::NullThunk { stem, .. } => {
            vec![layout("null thunk"), ("stem", Json::name(stem))]
        }
        Member::ShortImport(short) => short_parts(short),
        Member::WeakExternal { target, alias, .. } => vec![
            layout("weak external"),
            ("target", Json::name(target)),
            ("alias", Json::name(alias)),
        ],
    }
}

fn short_parts(short: ShortImport<'_>) -> Vec<(&'static str, Json)> {
    vec![
        ("layout", Json::text("short import")),
        ("ordinal", Json::Number(usize::from(short.ordinal))),
        ("name_type", Json::text(type_name(short.name_type))),
        ("kind", Json::text(kind_name(short.kind))),
        ("name", Json::name(short.symbol)),
        ("dll", Json::name(short.dll)),
        ("export", short.export.map_or(Json::Null, Json::name)),
    ]
}

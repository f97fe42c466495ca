//! Code as it is written over rust-analyzer's crate: with `ra_ap_syntax` in place of `ras` in the `use` lines it is the same.
use ras::ast::{self, AnyComment, AnyString, AstNode, AstToken, HasArgList, HasAttrs, HasGenericParams, HasModuleItem, HasName, HasVisibility, IsString, LiteralKind};
use ras::{
    AstPtr, Direction, Edition, NodeOrToken, Parse, Preorder, SourceFile, SyntaxElement, SyntaxError,
    SyntaxKind::{self, *},
    SyntaxNode, SyntaxNodePtr, SyntaxText, SyntaxToken, SyntaxTreeBuilder, T, TextRange, TextSize, WalkEvent, algo, hacks, match_ast, utils,
};

const TEXT: &str = "\
//! A module.
use a::{b, c::{self as d}};

/// Shapes.
#[derive(Debug)]
pub enum Shape<T> {
    /** round */
    Circle { radius: T },
    Unit,
}

impl<T> Shape<T> where T: Copy {
    fn area(&self) -> f64 {
        // π r²
        match self { Shape::Circle { radius: r } if true => 3.0 * r.into().pow(0x2u8), _ => \"0\\t1\".len() as f64 }
    }
}

fn empty() {}
";

fn file(text: &str) -> SourceFile {
    let parse: Parse<SourceFile> = SourceFile::parse(text, Edition::CURRENT);
    assert!(parse.errors().is_empty(), "{:?}", parse.errors());
    parse.tree()
}

fn find<N: AstNode>(file: &SourceFile) -> N {
    file.syntax().descendants().find_map(N::cast).unwrap()
}

fn tokens(file: &SourceFile) -> impl Iterator<Item = SyntaxToken> {
    file.syntax().descendants_with_tokens().filter_map(|it| it.into_token())
}

// What may be kept in a struct and sent to another thread.
#[derive(Clone, Debug, PartialEq, Eq, Hash)]
struct Finding {
    node: SyntaxNode,
    at: SyntaxNodePtr,
    function: Option<AstPtr<ast::Fn>>,
}

#[test]
fn nodes_are_kept() {
    fn sendable<T: Send + Sync + Clone + 'static>(value: T) -> T {
        value
    }
    let file = file(TEXT);
    let function: ast::Fn = find(&file);
    let finding = sendable(Finding {
        node: function.syntax().clone(),
        at: SyntaxNodePtr::new(function.syntax()),
        function: Some(AstPtr::new(&function)),
    });
    let root = file.syntax().clone();
    let found = std::thread::spawn(move || finding.function.unwrap().to_node(&root)).join().unwrap();
    assert_eq!(found, function);
}

#[test]
fn walks_pass_over_subtrees() {
    fn kinds_outside_of_functions(root: &SyntaxNode) -> Vec<SyntaxKind> {
        let mut kinds = Vec::new();
        let mut events: Preorder = root.preorder();
        while let Some(event) = events.next() {
            match event {
                WalkEvent::Enter(node) if ast::Fn::can_cast(node.kind()) => events.skip_subtree(),
                WalkEvent::Enter(node) => kinds.push(node.kind()),
                WalkEvent::Leave(_) => {}
            }
        }
        kinds
    }
    assert_eq!(kinds_outside_of_functions(file("fn f() { fn g() {} } struct S;").syntax()), [SOURCE_FILE, STRUCT, NAME]);
}

#[test]
fn matches_have_conditions() {
    let file = file(TEXT);
    let mut told = Vec::new();
    for node in file.syntax().descendants() {
        let name = match_ast! {
            match node {
                ast::Fn(it) if it.body().is_some_and(|it| it.tail_expr().is_none()) => it.name(),
                ast::Fn(_) => continue,
                ast::Enum(it) => it.name(),
                _ => continue,
            }
        };
        told.push(name.unwrap().text().to_owned());
    }
    assert_eq!(told, ["Shape", "empty"]);
}

#[test]
fn parents_and_literals_are_there() {
    let file = file(TEXT);
    let variant: ast::Variant = find(&file);
    assert_eq!(variant.parent_enum().name().unwrap().text(), "Shape");
    assert!(variant.doc_comments().all(|it| it.kind().is_outer() && it.shape().is_block() && it.text() == " round "));
    let arm: ast::MatchArm = find(&file);
    assert_eq!(arm.parent_match().match_arm_list().unwrap().arms().count(), 2);
    let field: ast::RecordPatField = find(&file);
    assert_eq!(field.parent_record_pat().path().unwrap().to_string(), "Shape::Circle");
    let list: ast::UseTreeList = find(&file);
    assert_eq!(list.parent_use_tree().path().unwrap().segment().unwrap().parent_path().to_string(), "a");
    let literals = file.syntax().descendants().filter_map(ast::Literal::cast);
    let told: Vec<String> = literals
        .map(|literal| match literal.kind() {
            LiteralKind::String(it) => it.value().map_or_else(|error| error.to_string(), |it| it.into_owned()),
            LiteralKind::IntNumber(it) => format!("{:?}", it.value()),
            LiteralKind::FloatNumber(it) => it.value_string(),
            LiteralKind::Bool(it) => it.to_string(),
            _ => literal.token().text().to_owned(),
        })
        .collect();
    assert_eq!(told, ["true", "3.0", "Ok(2)", "0\t1"]);
}

#[test]
fn traits_are_bounds() {
    fn described<N: HasName + HasVisibility + HasGenericParams>(it: &N) -> String {
        let parameters = it.generic_param_list().map(|it| it.generic_params().count());
        format!("{} {} {parameters:?}", it.visibility().is_some(), it.name().map_or_else(String::new, |it| it.to_string()))
    }
    fn attributes(owner: &dyn HasAttrs) -> usize {
        ast::attrs_including_inner(owner).count()
    }
    let file = file(TEXT);
    assert_eq!(described(&find::<ast::Adt>(&file)), "true Shape Some(1)");
    assert_eq!((attributes(&file), attributes(&find::<ast::Enum>(&file))), (0, 1));
    assert_eq!(ast::attrs_with_doc_including_inner(&file).clone().count(), 1);
    assert_eq!((ast::Fn::kind(), <ast::Variant as AstNode>::kind()), (FN, VARIANT));
    assert_eq!(file.items().count(), 4);
    let call: ast::MethodCallExpr = find(&file);
    assert_eq!(call.arg_list().unwrap().args().count(), 1);
    assert_eq!(call.clone_subtree().syntax().text_range().start(), TextSize::from(0));
}

#[test]
fn views_become_wider() {
    let file = file(TEXT);
    let item: Option<ast::AssocItem> = find::<ast::Impl>(&file).assoc_item_list().and_then(|it| it.assoc_items().next());
    let item = ast::Item::from(item.unwrap());
    assert!(matches!(&item, ast::Item::Fn(it) if it.name().is_some_and(|it| it.text() == "area")));
    let owner: ast::AnyHasAttrs = item.into();
    assert_eq!(owner.attrs().count(), 0);
    let shape: ast::Enum = find(&file);
    assert!(matches!(ast::Item::from(ast::Adt::from(shape.clone())), ast::Item::Enum(it) if it == shape));
    let parameter = shape.generic_param_list().and_then(|it| it.type_or_const_params().next()).unwrap();
    assert!(matches!(&parameter, ast::TypeOrConstParam::Type(it) if it.name().is_some()));
    assert!(matches!(parameter.into(), ast::GenericParam::TypeParam(_)));
    assert_eq!(usize::from(ast::DocComment::PREFIX_LEN), 3);
}

#[test]
fn tokens_have_their_types() {
    let file = file(TEXT);
    let comments: Vec<_> = tokens(&file).filter_map(AnyComment::cast).map(|it| (it.prefix(), it.text().to_owned())).collect();
    let wanted = [("//!", " A module."), ("///", " Shapes."), ("/**", " round "), ("//", " π r²")];
    assert_eq!(comments, wanted.map(|(prefix, text)| (prefix, text.to_owned())));
    let plain = tokens(&file).find_map(ast::Comment::cast).unwrap();
    assert_eq!(plain.text_without_markers(), " π r²");
    let string = tokens(&file).find_map(AnyString::cast).unwrap();
    assert_eq!(string.text_without_quotes(), "0\\t1");
    let mut units = Vec::new();
    string.escaped_char_ranges(&mut |range, unit| units.push((range, unit)));
    assert_eq!(units[1], (TextRange::new(2.into(), 4.into()), Ok('\t')));
    let range = string.map_range_up(TextRange::up_to(1.into())).unwrap();
    assert_eq!((&TEXT[range], string.map_offset_down(range.end())), ("0", Some(1.into())));
    let number = tokens(&file).find_map(ast::IntNumber::cast).unwrap();
    assert_eq!((number.radix(), number.suffix()), (ast::Radix::Hexadecimal, Some("u8")));
}

#[test]
fn children_are_found_by_kind() {
    let file = file(TEXT);
    let shape: ast::Enum = find(&file);
    let node = shape.syntax();
    assert_eq!(node.first_child_by_kind(&|kind| kind == VARIANT_LIST), shape.variant_list().map(|it| it.syntax().clone()));
    let token: Option<SyntaxElement> = node.first_child_or_token_by_kind(&|kind| kind == T![enum]);
    assert_eq!(token.as_ref().and_then(NodeOrToken::as_token).map(|it| it.index()), Some(6));
    assert_eq!(node.children().by_kind(|kind| matches!(kind, NAME | ATTR)).count(), 2);
    assert_eq!(node.children_with_tokens().by_kind(|kind| kind.is_trivia()).count(), 5);
    assert_eq!(node.next_sibling_by_kind(&|kind| kind == FN).map(|it| it.index()), Some(8));
    assert_eq!(node.next_sibling_or_token_by_kind(&|kind| kind == WHITESPACE).map(|it| it.index()), Some(node.index() + 1));
    let name = shape.name().unwrap();
    assert_eq!(node.child_or_token_at_range(name.syntax().text_range()), Some(name.syntax().clone().into()));
    assert_eq!(algo::least_common_ancestor_element(name.syntax(), node.first_token().unwrap()), Some(node.clone()));
    assert_eq!(algo::neighbor(&shape, Direction::Next).map(|it: ast::Enum| it.to_string()), None);
}

#[test]
fn indices_count_siblings() {
    for node in file(TEXT).syntax().descendants() {
        for (n, child) in node.children_with_tokens().enumerate() {
            assert_eq!(child.index(), n);
        }
    }
}

#[test]
fn trees_are_built() {
    let mut builder = SyntaxTreeBuilder::default();
    let file = file(TEXT);
    for event in file.syntax().preorder_with_tokens() {
        match event {
            WalkEvent::Enter(NodeOrToken::Node(it)) => builder.start_node(it.kind()),
            WalkEvent::Enter(NodeOrToken::Token(it)) => builder.token(it.kind(), it.text()),
            WalkEvent::Leave(NodeOrToken::Node(_)) => builder.finish_node(),
            WalkEvent::Leave(NodeOrToken::Token(_)) => {}
        }
    }
    builder.error("no".to_owned(), 3.into());
    let parse = builder.finish();
    assert_eq!(parse.errors(), [SyntaxError::new("no", TextRange::empty(3.into()))]);
    assert_eq!(format!("{:#?}", parse.syntax_node()), format!("{:#?}", file.syntax()));
    assert_eq!(parse.cast::<SourceFile>().unwrap().tree().items().count(), 4);
}

#[test]
fn texts_are_parsed_again() {
    let parse = SourceFile::parse("fn f() { 1 }", Edition::CURRENT);
    for (range, insert) in [((3, 4), "main"), ((9, 10), ""), ((11, 12), ""), ((0, 12), "'")] {
        let range = TextRange::new(range.0.into(), range.1.into());
        let mut text = "fn f() { 1 }".to_owned();
        text.replace_range(std::ops::Range::<usize>::from(range), insert);
        assert_eq!(parse.reparse(range, insert, Edition::CURRENT), SourceFile::parse(&text, Edition::CURRENT));
    }
}

#[test]
fn kinds_are_numbers() {
    let mut places = 0;
    while let Some(kind) = SyntaxKind::from_place(places) {
        assert_eq!((u16::from(kind), SyntaxKind::from(places)), (places, kind));
        assert_eq!(SyntaxKind::from_number(kind.number()), Some(kind));
        assert_eq!(SyntaxKind::from_name(kind.name()), Some(kind));
        for edition in Edition::iter() {
            let is_word = kind.is_strict_keyword(edition);
            assert_eq!(SyntaxKind::from_keyword(kind.text(), edition).is_some_and(|it| it == kind), is_word, "{kind:?}");
        }
        places += 1;
    }
    assert!(places > 300 && size_of::<SyntaxKind>() == 2);
    assert_eq!((T![=>].text(), T![crate].text(), IDENT.text()), ("=>", "crate", ""));
    assert_eq!([T![$], T!['$'], T![asm], T![abstract], T![safe], T![shebang]], [DOLLAR, DOLLAR, ASM_KW, ABSTRACT_KW, SAFE_KW, SHEBANG]);
}

#[test]
fn texts_are_read_in_pieces() {
    fn collapsed(node: &SyntaxNode) -> String {
        let mut line = String::new();
        node.text().for_each_chunk(|chunk| line.extend(chunk.lines().map(str::trim)));
        line
    }
    let file = file(TEXT);
    for node in file.syntax().descendants() {
        let (mut joined, mut pieces) = (String::new(), Vec::new());
        node.text().for_each_chunk(|it| {
            joined.push_str(it);
            pieces.push(it.to_owned());
        });
        assert_eq!(joined, node.text());
        // The tree joins `->`, `=>` and `::`.
        let tokens = node.tokens().flat_map(|it| if it.kind().is_punct() { it.text().chars().map(String::from).collect() } else { vec![it.text().to_owned()] });
        assert_eq!(pieces, tokens.collect::<Vec<_>>());
    }
    assert_eq!(collapsed(find::<ast::RecordFieldList>(&file).syntax()), "{radius:T}");
    let mut left = 3;
    let ended = file.syntax().text().try_for_each_chunk(|it| {
        left -= 1;
        if left > 0 { Ok(()) } else { Err(it.to_owned()) }
    });
    assert_eq!(ended, Err("use".to_owned()));
    assert_eq!("a b\n".try_fold_chunks(0, |sum, it| Ok::<_, ()>(sum * 10 + it.len())), Ok(1111));
    "".for_each_chunk(|it| panic!("an empty text has no piece: {it}"));
}

#[test]
fn names_and_expressions_are_told() {
    let name = |text| utils::is_identifier(text, Edition::CURRENT);
    assert!(["a", "_", "_a", "ä1", "union", "r", "raw"].into_iter().all(name));
    assert!(!["", "1", "fn", "Self", "gen", "r#a", "a b", "a ", " a", "'a", "a!", "a.b"].into_iter().any(name));
    assert!(utils::is_identifier("gen", Edition::Edition2021));
    let expr = |text| hacks::parse_expr_from_str(text, Edition::CURRENT).map(|it| it.to_string());
    assert_eq!(expr(" a + b"), Some("a + b".to_owned()));
    assert_eq!((expr("a b"), expr("")), (None, None));
}

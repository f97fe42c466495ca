//! The constructors that the library does not have: each once, and what they refuse.
use ras::ast::{self, AstNode};
use ras::SyntaxKind::{IDENT, INNER_DOC_COMMENT, INT_NUMBER, OUTER_DOC_COMMENT, SOURCE_FILE, WHITESPACE};
use ras::make::{self, MakeError, ext};
use ras::syntax_editor::{Position, SyntaxEditor};
use ras::{Edition, Either, SourceFile, T};

fn is<N: AstNode>(made: Result<N, MakeError>, text: &str) {
    let node = made.unwrap_or_else(|error| panic!("{text}: {error}"));
    assert_eq!((node.syntax().text(), node.syntax().parent()), (text, None));
}

type Done = Result<(), Box<dyn std::error::Error>>;

#[test]
fn bounds_and_generics() -> Done {
    let (a, b) = (make::type_bound(&make::ty("A")?)?, make::type_bound_text("for<'a> B<'a>")?);
    is(Ok(a.clone()), "A");
    is(make::type_bound_text("?Sized"), "?Sized");
    assert_eq!(make::type_bound_list(&[])?, None);
    let bounds = make::type_bound_list(&[a.clone(), b])?.unwrap();
    is(Ok(bounds.clone()), "A + for<'a> B<'a>");
    let (name, lifetime) = (make::name("T")?, make::lifetime("'a")?);
    is(make::type_param(&name, Some(&bounds)), "T: A + for<'a> B<'a>");
    is(make::type_param(&name, None), "T");
    is(make::const_param(&make::name("N")?, &make::ty("usize")?), "const N: usize");
    is(make::lifetime_param(&lifetime), "'a");
    is(make::lifetime_arg(&lifetime), "'a");
    is(make::expr_const_value("{ a + b }"), "{ a + b }");
    let args = [make::node::<ast::GenericArg>("A")?, make::node::<ast::GenericArg>("'a")?];
    is(make::turbofish_generic_arg_list(&args), "::<A, 'a>");
    is(make::generic_ty_path_segment(&make::name_ref("Vec")?, &args[..1]), "Vec<A>");
    let pred = make::where_pred(Either::Right(&make::ty("T")?), &[a.clone()])?;
    is(Ok(pred.clone()), "T: A");
    let outlives = make::where_pred(Either::Left(&lifetime), &[make::type_bound_text("'b")?])?;
    is(make::where_clause(&[pred, outlives]), "where T: A, 'a: 'b");
    is(make::impl_trait_type(&bounds), "impl A + for<'a> B<'a>");
    assert!(make::type_bound(&make::ty("[u8]")?).is_err());
    Ok(())
}

#[test]
fn records() -> Done {
    let value: ast::Expr = make::node("f(1)")?;
    let field = make::record_expr_field(&make::name_ref("a")?, Some(&value))?;
    let short = make::record_expr_field(&make::name_ref("b")?, None)?;
    is(Ok(field.clone()), "a: f(1)");
    let fields = make::record_expr_field_list(&[field, short])?;
    is(Ok(fields.clone()), "{ a: f(1), b }");
    is(make::record_expr(&make::ident_path("A")?, &fields), "A { a: f(1), b }");
    is(make::record_expr_field_list(&[]), "{ }");
    let pat = make::record_pat_field(&make::name_ref("a")?, &make::node("Some(x)")?)?;
    let bound = make::record_pat_field_shorthand(&make::node("b")?)?;
    let rest = make::rest_pat()?;
    let pats = make::record_pat_field_list(&[pat, bound], Some(&rest))?;
    is(Ok(pats.clone()), "{ a: Some(x), b, .. }");
    is(make::record_pat_field_list(&[], Some(&rest)), "{ .. }");
    is(make::record_pat_with_fields(&make::ident_path("A")?, &pats), "A { a: Some(x), b, .. }");
    let public = make::visibility_pub_crate()?;
    let named = make::record_field(Some(&public), &make::name("a")?, &make::ty("Vec<u8>")?)?;
    is(Ok(named.clone()), "pub(crate) a: Vec<u8>");
    is(make::record_field(None, &make::name("a")?, &make::ty("u8")?), "a: u8");
    let named = make::record_field_list(&[named])?;
    is(Ok(named.clone()), "{ pub(crate) a: Vec<u8> }");
    let bare = make::tuple_field(None, &make::ty("u8")?)?;
    let bare = make::tuple_field_list(&[bare, make::tuple_field(Some(&make::visibility_pub()?), &make::ty("B")?)?])?;
    is(Ok(bare.clone()), "(u8, pub B)");
    let (named, bare) = (ast::FieldList::RecordFieldList(named), ast::FieldList::TupleFieldList(bare));
    let first = make::variant(&make::name("A")?, Some(&named), None)?;
    is(Ok(first.clone()), "A { pub(crate) a: Vec<u8> }");
    let second = make::variant(&make::name("B")?, Some(&bare), None)?;
    let third = make::variant(&make::name("C")?, None, Some(&make::node("1 + 2")?))?;
    let variants = make::variant_list(&[second, third])?;
    is(Ok(variants.clone()), "{ B(u8, pub B), C = 1 + 2 }");
    let generics = make::node::<ast::GenericParamList>("<T>")?;
    is(make::struct_(&make::name("S")?, None, Some(&named)), "struct S { pub(crate) a: Vec<u8> }");
    is(make::struct_(&make::name("S")?, Some(&generics), Some(&bare)), "struct S<T>(u8, pub B);");
    is(make::struct_(&make::name("S")?, None, None), "struct S;");
    let where_clause = make::node::<ast::WhereClause>("where T: A")?;
    is(
        make::enum_(&make::name("E")?, Some(&generics), Some(&where_clause), &variants),
        "enum E<T> where T: A { B(u8, pub B), C = 1 + 2 }",
    );
    Ok(())
}

#[test]
fn definitions() -> Done {
    let function: ast::Fn = make::node("fn f() {}")?;
    let items = make::assoc_item_list(&[ast::AssocItem::Fn(function.clone())])?;
    is(Ok(items.clone()), "{\n    fn f() {}\n}");
    is(make::assoc_item_list(&[]), "{}");
    let (name, ty) = (make::name("A")?, make::ty("B<T>")?);
    let generics = make::node::<ast::GenericParamList>("<T>")?;
    let where_clause = make::node::<ast::WhereClause>("where T: C")?;
    is(make::trait_(&name, None, Some(&where_clause), &items), "trait A where T: C {\n    fn f() {}\n}");
    is(make::impl_(Some(&generics), &ty, Some(&where_clause), &items), "impl<T> B<T> where T: C {\n    fn f() {}\n}");
    is(make::impl_trait(Some(&generics), &make::ty("A")?, &ty, None, &items), "impl<T> A for B<T> {\n    fn f() {}\n}");
    let inner = make::item_list(&[ast::Item::Fn(function)])?;
    is(make::mod_(&make::name("m")?, Some(&inner)), "mod m {\n    fn f() {}\n}");
    is(make::mod_(&make::name("m")?, None), "mod m;");
    is(make::item_const(&name, &ty, &make::node("1 + 2")?), "const A: B<T> = 1 + 2;");
    is(make::item_static(true, &name, &ty, &make::node("x")?), "static mut A: B<T> = x;");
    is(make::ty_alias(&name, Some(&generics), &ty), "type A<T> = B<T>;");
    is(make::mut_self_param(), "&mut self");
    let path = make::ident_path("derive")?;
    let tokens: ast::TokenTree = make::node("(Clone)")?;
    is(make::meta_token_tree(&path, &tokens), "derive(Clone)");
    is(make::meta_path(&make::ident_path("inline")?), "inline");
    is(make::meta_expr(&make::ident_path("path")?, &make::node("\"a.rs\"")?), "path = \"a.rs\"");
    is(make::use_tree_glob(), "*");
    is(make::use_tree_list(&[make::node("a")?, make::node("b::{c, d}")?]), "{a, b::{c, d}}");
    Ok(())
}

#[test]
fn patterns_blocks_and_paths() -> Done {
    let pats = [make::node::<ast::Pat>("1")?, make::node::<ast::Pat>("x")?];
    is(make::literal_pat("-1"), "-1");
    is(make::slice_pat(&pats), "[1, x]");
    is(make::or_pat(&pats, false), "1 | x");
    is(make::or_pat(&pats, true), "| 1 | x");
    assert!(make::or_pat(&pats[..1], false).is_err());
    is(make::box_pat(&pats[1]), "box x");
    is(make::paren_pat(&pats[1]), "(x)");
    is(make::ref_pat(&pats[1]), "&x");
    // `&1 | x` is not a reference to `1 | x`.
    assert!(make::ref_pat(&make::node("1 | x")?).is_err());
    is(make::range_pat(Some(&pats[0]), None), "1..");
    is(make::range_pat(Some(&pats[0]), Some(&make::node("9")?)), "1..9");
    assert!(make::range_pat(None, None).is_err());
    let value: ast::Expr = make::node("a + b")?;
    is(make::match_guard(&value), "if a + b");
    is(make::tail_only_block_expr(&value), "{ a + b }");
    is(make::async_move_block_expr(&[make::node("f();")?], Some(&value)), "async move {\n    f();\n    a + b\n}");
    is(make::expr_loop(&make::expr_empty_block()?), "loop {}");
    let types = [make::ty("A")?, make::ty("B")?];
    is(make::ty_tuple(&types), "(A, B)");
    is(make::ty_tuple(&types[..1]), "(A,)");
    is(make::ty_tuple(&[]), "()");
    is(make::ty_infer(), "_");
    is(make::name_ref_self_ty(), "Self");
    let segments = [make::path_segment_crate()?, make::path_segment(&make::name_ref("a")?)?];
    is(make::path_from_segments(&segments, false), "crate::a");
    is(make::path_from_segments(&segments[1..], true), "::a");
    is(make::path_segment_self(), "self");
    is(make::path_segment_super(), "super");
    is(make::path_concat(&make::path_from_text("a::b")?, &make::path_from_text("c<D>")?), "a::b::c<D>");
    is(make::join_paths(&[make::ident_path("a")?, make::ident_path("b")?]), "a::b");
    is(ext::path_from_idents(["a", "b"]).map(Option::unwrap), "a::b");
    assert_eq!(ext::path_from_idents([])?, None);
    is(ext::field_from_idents(["a", "b", "c"]).map(Option::unwrap), "a.b.c");
    is(ext::expr_todo(), "todo!()");
    is(ext::expr_unreachable(), "unreachable!()");
    is(ext::expr_underscore(), "_");
    is(ext::expr_self(), "self");
    is(ext::option_none(), "None");
    is(ext::zero_number(), "0");
    is(ext::zero_float(), "0.0");
    is(ext::empty_str(), "\"\"");
    is(ext::default_bool(), "false");
    is(ext::empty_block_expr(), "{}");
    is(ext::simple_ident_pat(&make::name("a")?), "a");
    is(ext::ty_name(&make::name("A")?), "A");
    is(ext::ty_bool(), "bool");
    is(ext::ty_option(&types[0]), "Option<A>");
    is(ext::ty_result(&types[0], &types[1]), "Result<A, B>");
    Ok(())
}

#[test]
fn tokens() -> Done {
    for (made, kind, text) in [
        (make::token(T![=>])?, T![=>], "=>"),
        (make::token(T![union])?, T![union], "union"),
        (make::tokens::single_space(), WHITESPACE, " "),
        (make::tokens::single_newline(), WHITESPACE, "\n"),
        (make::tokens::blank_line(), WHITESPACE, "\n\n"),
        (make::tokens::whitespace(" \t\u{2028}")?, WHITESPACE, " \t\u{2028}"),
        (make::tokens::literal("0x1F_u8")?, INT_NUMBER, "0x1F_u8"),
        (make::tokens::literal("true")?, T![true], "true"),
        (make::tokens::ident("r#fn")?, IDENT, "r#fn"),
        (make::tokens::doc_comment("/// a")?, OUTER_DOC_COMMENT, "/// a"),
        (make::tokens::doc_comment("//! a")?, INNER_DOC_COMMENT, "//! a"),
        (make::tokens::doc_comment("/** a */")?, OUTER_DOC_COMMENT, "/** a */"),
    ] {
        assert_eq!((made.kind(), made.text()), (kind, text));
    }
    for refused in [
        make::token(WHITESPACE),
        make::token(SOURCE_FILE),
        make::tokens::whitespace(""),
        make::tokens::whitespace("\u{A0}"),
        make::tokens::literal("-1"),
        make::tokens::literal("1 "),
        make::tokens::ident("fn"),
        make::tokens::ident("a b"),
        make::tokens::doc_comment("// a"),
        make::tokens::doc_comment("/// a\n"),
        make::tokens::doc_comment("/** a"),
        make::tokens::doc_comment(""),
    ] {
        assert!(refused.is_err(), "{refused:?}");
    }
    // What an editor does with them.
    let file = SourceFile::parse("fn f() { a+b; }", Edition::CURRENT).tree();
    let sum = file.syntax().descendants().find_map(ast::BinExpr::cast).unwrap();
    let op = sum.op_token().unwrap();
    let mut editor = SyntaxEditor::new(file.syntax());
    editor.insert(Position::before(&op), make::tokens::single_space())?;
    editor.insert(Position::after(&op), make::tokens::single_space())?;
    editor.replace(&op, make::token(T![-])?)?;
    editor.replace(sum.rhs().unwrap().syntax().first_token().unwrap(), make::tokens::ident("c")?)?;
    assert_eq!(editor.finish()?.new_root().text(), "fn f() { a - c; }");
    Ok(())
}

//! Each constructor once, and the pairs that operands get. Written by bindings/make from crates/make_vectors/src/made.rt.
use ras::ast::{self, ArithOp, BinaryOp, CmpOp, LogicOp, UnaryOp};
use ras::AstNode;
use ras::make::{self, MakeError};

fn is<N: AstNode>(made: Result<N, MakeError>, text: &str) -> bool {
    match made {
        Ok(node) => node.syntax().text() == text && node.syntax().parent().is_none(),
        Err(_) => false,
    }
}

#[test]
fn names() -> Result<(), Box<dyn std::error::Error>> {
    assert!(is(make::name("a"), "a"));
    assert!(is(make::name_ref("a"), "a"));
    assert!(is(make::path_from_text("a::b<C>"), "a::b<C>"));
    assert!(is(make::ident_path("a"), "a"));
    let segment = make::path_segment(&make::name_ref("b")?)?;
    assert!(is(make::path_unqualified(&segment), "b"));
    assert!(is(
            make::path_qualified(&make::ident_path("a")?, &segment),
            "a::b"
        )
    );
    assert!(is(make::type_arg(&make::ty("A<B>")?), "A<B>"));
    let args = [
        make::node::<ast::GenericArg>("A")?,
        make::node::<ast::GenericArg>("'a")?,
    ];
    assert!(is(make::generic_arg_list(&args), "<A, 'a>"));
    let params = [
        make::node::<ast::GenericParam>("A: B")?,
        make::node::<ast::GenericParam>("C")?,
    ];
    assert!(is(make::generic_param_list(&params), "<A: B, C>"));
    Ok(())
}

#[test]
fn types() -> Result<(), Box<dyn std::error::Error>> {
    let a = make::ty("A")?;
    assert!(is(make::ty_placeholder(), "_"));
    assert!(is(make::ty_unit(), "()"));
    assert!(is(make::ty_path(&make::path_from_text("a::B")?), "a::B"));
    assert!(is(make::ty_ref(&a), "&A"));
    assert!(is(make::ty_ref_mut(&a), "&mut A"));
    assert!(is(make::ty_ref(&make::ty("dyn A + B")?), "&(dyn A + B)"));
    assert!(is(make::ret_type(&a), "-> A"));
    Ok(())
}

#[test]
fn expressions() -> Result<(), Box<dyn std::error::Error>> {
    let a = make::node::<ast::Expr>("a")?;
    let b = make::node::<ast::Expr>("b")?;
    let path = make::path_from_text("m::n")?;
    assert!(is(make::expr_path(&path), "m::n"));
    assert!(is(make::expr_literal("1"), "1"));
    assert!(is(make::expr_unit(), "()"));
    assert!(is(make::expr_empty_block(), "{}"));
    assert!(is(make::expr_assignment(&a, &b), "a = b"));
    assert!(is(make::expr_prefix(UnaryOp::Not, &a), "!a"));
    assert!(is(make::expr_ref(&a), "&a"));
    assert!(is(make::expr_ref_mut(&a), "&mut a"));
    assert!(is(make::expr_paren(&a), "(a)"));
    let args = [
        make::node::<ast::Expr>("a + 1")?,
        make::node::<ast::Expr>("b")?,
    ];
    let list = make::arg_list(&args)?;
    assert!(list.syntax().text() == "(a + 1, b)");
    assert!(is(make::arg_list(&[]), "()"));
    assert!(is(make::expr_call(&a, &list), "a(a + 1, b)"));
    assert!(is(
            make::expr_method_call(&a, &make::name_ref("f")?, &list),
            "a.f(a + 1, b)"
        )
    );
    assert!(is(make::expr_field(&a, "b"), "a.b"));
    assert!(is(make::expr_field(&a, "0"), "a.0"));
    assert!(is(make::expr_try(&a), "a?"));
    assert!(is(make::expr_await(&a), "a.await"));
    assert!(is(make::expr_cast(&a, &make::ty("A")?), "a as A"));
    assert!(is(
            make::expr_macro(&path, &make::node::<ast::TokenTree>("(a, b)")?),
            "m::n!(a, b)"
        )
    );
    assert!(is(make::expr_tuple(&args), "(a + 1, b)"));
    assert!(!is(make::expr_tuple(&args[..1]), "(a + 1)"));
    assert!(is(make::expr_array(&args), "[a + 1, b]"));
    Ok(())
}

#[test]
fn operands_get_pairs() -> Result<(), Box<dyn std::error::Error>> {
    let a = make::node::<ast::Expr>("a")?;
    let sum = make::node::<ast::Expr>("a + b")?;
    let less = make::node::<ast::Expr>("a < b")?;
    let field = make::node::<ast::Expr>("a.f")?;
    let record = make::node::<ast::Expr>("S { a }")?;
    let minus = make::node::<ast::Expr>("-1")?;
    let mul = BinaryOp::ArithOp(ArithOp::Mul);
    let sub = BinaryOp::ArithOp(ArithOp::Sub);
    let and = BinaryOp::LogicOp(LogicOp::And);
    let equal = BinaryOp::CmpOp(CmpOp::Eq { negated: false });
    let list = make::arg_list(&[])?;
    let block = make::expr_empty_block()?;
    assert!(is(make::expr_bin_op(&sum, mul, &a), "(a + b) * a"));
    assert!(is(make::expr_bin_op(&a, mul, &sum), "a * (a + b)"));
    assert!(is(make::expr_bin_op(&sum, mul, &sum), "(a + b) * (a + b)"));
    assert!(is(make::expr_bin_op(&sum, sub, &a), "a + b - a"));
    assert!(is(make::expr_bin_op(&a, sub, &sum), "a - (a + b)"));
    assert!(is(make::expr_bin_op(&less, and, &less), "a < b && a < b"));
    assert!(is(make::expr_bin_op(&less, equal, &a), "(a < b) == a"));
    assert!(is(make::expr_prefix(UnaryOp::Neg, &sum), "-(a + b)"));
    assert!(is(make::expr_prefix(UnaryOp::Neg, &minus), "--1"));
    assert!(is(make::expr_ref(&sum), "&(a + b)"));
    assert!(is(make::expr_call(&field, &list), "(a.f)()"));
    assert!(is(
            make::expr_method_call(&minus, &make::name_ref("f")?, &list),
            "(-1).f()"
        )
    );
    assert!(is(make::expr_field(&sum, "b"), "(a + b).b"));
    assert!(is(make::expr_try(&sum), "(a + b)?"));
    assert!(is(make::expr_await(&minus), "(-1).await"));
    assert!(is(make::expr_cast(&sum, &make::ty("A")?), "(a + b) as A"));
    assert!(is(make::expr_if(&record, &block, None), "if (S { a }) {}"));
    assert!(is(
            make::expr_match(&record, &make::match_arm_list(&[])?),
            "match (S { a }) {\n}"
        )
    );
    assert!(is(make::expr_while_loop(&record, &block), "while (S { a }) {}"));
    Ok(())
}

#[test]
fn control() -> Result<(), Box<dyn std::error::Error>> {
    let a = make::node::<ast::Expr>("a")?;
    let b = make::node::<ast::Expr>("b")?;
    let p = make::node::<ast::Pat>("p")?;
    let body = make::node::<ast::BlockExpr>("{ c }")?;
    let other = make::node::<ast::BlockExpr>("{ d }")?;
    let label = make::node::<ast::Lifetime>("'l")?;
    assert!(is(make::expr_let(&p, &a), "let p = a"));
    assert!(is(make::expr_if(&a, &body, None), "if a { c }"));
    let branch = ast::ElseBranch::cast(other.syntax().clone()).ok_or("no branch")?;
    assert!(is(
            make::expr_if(&a, &body, Some(&branch)),
            "if a { c } else { d }"
        )
    );
    assert!(is(make::expr_while_loop(&a, &body), "while a { c }"));
    assert!(is(make::expr_for_loop(&p, &a, &body), "for p in a { c }"));
    assert!(is(make::expr_return(None), "return"));
    assert!(is(make::expr_return(Some(&a)), "return a"));
    assert!(is(make::expr_break(None, None), "break"));
    assert!(is(make::expr_break(Some(&label), Some(&a)), "break 'l a"));
    assert!(is(make::expr_continue(Some(&label)), "continue 'l"));
    let params = [make::node::<ast::Param>("p: P")?];
    assert!(is(make::expr_closure(&params, &a), "|p: P| a"));
    let guard = make::node::<ast::MatchGuard>("if a")?;
    let arms = [
        make::match_arm(&p, Some(&guard), &b)?,
        make::match_arm(&p, None, &a)?,
    ];
    let list = make::match_arm_list(&arms)?;
    assert!(list.syntax().text() == "{\n    p if a => b,\n    p => a,\n}");
    assert!(is(
            make::expr_match(&a, &list),
            "match a {\n    p if a => b,\n    p => a,\n}"
        )
    );
    Ok(())
}

#[test]
fn statements() -> Result<(), Box<dyn std::error::Error>> {
    let a = make::node::<ast::Expr>("a")?;
    let p = make::node::<ast::Pat>("p")?;
    let ty = make::ty("A")?;
    let body = make::node::<ast::BlockExpr>("{ c }")?;
    assert!(is(make::expr_stmt(&a), "a;"));
    assert!(is(make::let_stmt(&p, None, None), "let p;"));
    assert!(is(make::let_stmt(&p, Some(&ty), Some(&a)), "let p: A = a;"));
    assert!(is(
            make::let_else_stmt(&p, None, &a, &body),
            "let p = a else { c };"
        )
    );
    let and = make::node::<ast::Expr>("a && b")?;
    assert!(is(
            make::let_else_stmt(&p, None, &and, &body),
            "let p = (a && b) else { c };"
        )
    );
    let stmts = [
        make::node::<ast::Stmt>("a;")?,
        make::node::<ast::Stmt>("let p = b;")?,
    ];
    assert!(is(
            make::block_expr(&stmts, Some(&a)),
            "{\n    a;\n    let p = b;\n    a\n}"
        )
    );
    assert!(is(make::block_expr(&[], None), "{\n}"));
    Ok(())
}

#[test]
fn patterns() -> Result<(), Box<dyn std::error::Error>> {
    let name = make::name("a")?;
    let path = make::path_from_text("A::B")?;
    let pats = [make::node::<ast::Pat>("p")?, make::node::<ast::Pat>("_")?];
    assert!(is(make::wildcard_pat(), "_"));
    assert!(is(make::ident_pat(&name), "a"));
    assert!(is(make::ident_pat_mut(&name), "mut a"));
    assert!(is(make::path_pat(&path), "A::B"));
    assert!(is(make::tuple_pat(&pats), "(p, _)"));
    assert!(is(make::tuple_struct_pat(&path, &pats), "A::B(p, _)"));
    let fields = [
        make::node::<ast::RecordPatField>("a")?,
        make::node::<ast::RecordPatField>("b: _")?,
    ];
    assert!(is(make::record_pat(&path, &fields), "A::B { a, b: _ }"));
    Ok(())
}

#[test]
fn items() -> Result<(), Box<dyn std::error::Error>> {
    let name = make::name("f")?;
    let ty = make::ty("A")?;
    let body = make::expr_empty_block()?;
    let params = [
        make::param(&make::node::<ast::Pat>("p")?, &ty)?,
        make::node::<ast::Param>("q: B")?,
    ];
    let list = make::param_list(&params)?;
    assert!(list.syntax().text() == "(p: A, q: B)");
    assert!(is(make::self_param(), "&self"));
    assert!(is(make::visibility_pub(), "pub"));
    assert!(is(make::attr_outer(&make::node::<ast::Meta>("a(b)")?), "#[a(b)]"));
    let tree = make::use_tree(&make::path_from_text("a::b")?)?;
    assert!(is(make::use_(&tree), "use a::b;"));
    let generics = make::node::<ast::GenericParamList>("<A>")?;
    let result = make::ret_type(&ty)?;
    assert!(is(
            make::fn_(&name, None, &list, None, &body),
            "fn f(p: A, q: B) {}"
        )
    );
    assert!(is(
            make::fn_(&name, Some(&generics), &list, Some(&result), &body),
            "fn f<A>(p: A, q: B) -> A {}"
        )
    );
    Ok(())
}

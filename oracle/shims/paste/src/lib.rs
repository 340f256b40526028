//! SHIM of paste: `[<a b>]` becomes the identifier `ab`; all else is passed through.
use proc_macro::{Delimiter, Group, Ident, Span, TokenStream, TokenTree};

#[proc_macro]
pub fn paste(input: TokenStream) -> TokenStream {
    walk(input)
}

/// A `$T:ty` fragment arrives as an invisible group around its tokens.
fn flat(t: TokenTree, out: &mut String) {
    match t {
        TokenTree::Group(g) => g.stream().into_iter().for_each(|t| flat(t, out)),
        t => out.push_str(&t.to_string()),
    }
}

fn walk(ts: TokenStream) -> TokenStream {
    ts.into_iter()
        .map(|t| match t {
            TokenTree::Group(g) => {
                let inner: Vec<TokenTree> = g.stream().into_iter().collect();
                let is = |t: Option<&TokenTree>, c: char| matches!(t, Some(TokenTree::Punct(p)) if p.as_char() == c);
                if g.delimiter() == Delimiter::Bracket && is(inner.first(), '<') && is(inner.last(), '>') {
                    let mut s = String::new();
                    let n = inner.len();
                    for t in inner.into_iter().skip(1).take(n - 2) {
                        flat(t, &mut s);
                    }
                    TokenTree::Ident(Ident::new(&s, Span::call_site()))
                } else {
                    TokenTree::Group(Group::new(g.delimiter(), walk(g.stream())))
                }
            }
            t => t,
        })
        .collect()
}

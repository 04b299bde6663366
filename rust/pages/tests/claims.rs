//! Every name of docs/CLAIMS.md stands where the page says.

use pages::claims::check;
use pages::tree::Tree;

const PAGE: &str = "docs/CLAIMS.md";

#[test]
fn every_name_stands_where_the_page_says() {
    let tree = Tree::of_project();
    let (_, page) = tree.below(PAGE).next().expect("the page");
    let checked = check(&tree, page);
    let told = checked.complaints.join("\n");
    assert!(told.is_empty(), "{PAGE}:\n{told}");
    // It is a page of names, and says where they stand.
    let (spans, said) = (checked.spans, checked.said);
    assert!(spans > 300 && said > 100, "{spans} spans, {said} sayings");
}

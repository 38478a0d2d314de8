// What the page's fields begin with, and other examples.

const START = {
  base: "HTTP://Example.COM:/docs/guide",
  links: [
    "intro?page=2#Start", "./x/../intro?page=2#Start", "//user@Files.Example.com:8080/a", "%7Ebob/caf%c3%a9",
    "../blog/./2026/../latest", "http://example.com:80/docs/intro?page=2#Start", "#top", "caf\u00e9", "//[1::2::3]/",
    "mailto:Bob@Example.com",
  ].join("\n"),
  one: "../%7Ebob/./caf%c3%a9",
  other: "http://EXAMPLE.com/~bob/caf%C3%A9",
  template: "/search{/kind}{?q,lang,page}",
  variables: "kind=articles\nq=black & white\nlang[]=en\nlang[]=fr",
  grammar: "uri",
  mode: "normal",
};

// RFC 3986 section 5.4.
const RESOLVED = [
  "g:h", "g", "./g", "g/", "/g", "//g", "?y", "g?y", "#s", "g#s", "g?y#s", ";x", "g;x", "g;x?y#s", "", ".", "./", "..", "../",
  "../g", "../..", "../../", "../../g", "../../../g", "../../../../g", "/./g", "/../g", "g.", ".g", "g..", "..g", "./../g",
  "./g/.", "g/./h", "g/../h", "g;x=1/./y", "g;x=1/../y", "g?y/./x", "g?y/../x", "g#s/./x", "g#s/../x", "http:g",
];

// By name, what each has of its own.
const EXAMPLES = {
  "Links of a page": {},
  "Relative references of RFC 3986": { base: "http://a/b/c/d;p?q", links: RESOLVED.join("\n"), one: "../g", other: "/./b/g" },
  "Refused links": {
    base: "http://example.com/docs/",
    links: [
      "a|b", "two words", "100%", "1a:b", "caf\u00e9", "\\docs\\a", "//a@b@c/", "//[1::2::3]/", "//host:8x/", "a#b#c", "?q=[1]",
      "//us^er@h/", "a\u200bb",
    ].join("\n"),
    one: "a|b", other: "a%7Cb",
  },
  "Where a browser differs": {
    base: "http://example.com/docs/",
    links: [
      "http:g", "http:///g", "//EX%41mple.com:80", "//127.1/", "//[0:0:0::1]/", "//u:@h/", "//h:99999/", "//1.2.3.4.5/",
      "%7e/%c3%a9", "?it's", "\\a\\b", " a ", "a\tb", "foo://EXAMPLE/", "mailto:a/../b", "a|b",
    ].join("\n"),
    one: "//127.1/", other: "//127.0.0.1/",
  },
  "Past ASCII": {
    base: "http://example.com/",
    links: [
      "caf\u00e9", "caf%C3%A9", "cafe\u0301", "\u65e5\u672c\u8a9e?\u03b1=\u03b2", "//\u00c9xample.org/", "\ufeffa", "a", "?\ue000",
      "\ue000",
    ].join("\n"),
    one: "caf\u00e9", other: "caf%c3%a9", grammar: "iri",
  },
  "Templates of RFC 6570": {
    template: "{/var,x}/here{?x,y,empty}{&list*}{#keys}",
    variables: "var=value\nx=1024\ny=768\nempty=\nlist[]=red\nlist[]=green\nlist[]=blue\nkeys[semi]=;\nkeys[dot]=.\nkeys[comma]=,",
  },
};

// The fields' values of an example.
const exampleOf = (name) => ({ ...START, ...EXAMPLES[name] });
const NAMES = Object.keys(EXAMPLES);

export { START, NAMES, exampleOf };

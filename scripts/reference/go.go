// The page of the package for Go in the form of pkg.go.dev, by go/doc: go run go.go FOLDER EXAMPLE
//
// It writes what is between the head of a page and its end on the standard output, and begins with the file EXAMPLE. On
// the standard error it names each public name without a comment, one a line.
package main

import (
	"fmt"
	"go/ast"
	"go/doc"
	"go/format"
	"go/parser"
	"go/token"
	"html"
	"os"
	"path/filepath"
	"sort"
	"strings"
)

var (
	files = token.NewFileSet()
	page  *doc.Package
)

func fail(err error) {
	if err != nil {
		fmt.Fprintln(os.Stderr, "go.go:", err)
		os.Exit(2)
	}
}

// source is a declaration as gofmt writes it, without the body of a function.
func source(node ast.Node) string {
	var text strings.Builder
	fail(format.Node(&text, files, node))
	return html.EscapeString(text.String())
}

// documented writes a comment, and names what has none.
func documented(text string, names ...string) {
	if strings.TrimSpace(text) == "" {
		for _, name := range names {
			fmt.Fprintln(os.Stderr, name)
		}
	}
	os.Stdout.Write(page.HTML(text))
}

func heading(level int, anchor, text string) {
	fmt.Printf("<h%d id=\"%s\">%s <a href=\"#%s\">¶</a></h%d>\n", level, anchor, html.EscapeString(text), anchor, level)
}

// values writes constants or variables. A group has a comment of its own, or each of its lines has one.
func values(all []*doc.Value) {
	for _, value := range all {
		fmt.Printf("<pre>%s</pre>\n", source(value.Decl))
		if value.Doc == "" && each(value.Decl) {
			continue
		}
		documented(value.Doc, value.Names...)
	}
}

// each tells whether each line of a declaration, or the one before it in its group, has a comment.
func each(decl *ast.GenDecl) bool {
	for number, spec := range decl.Specs {
		value, ok := spec.(*ast.ValueSpec)
		if !ok || number == 0 && value.Doc == nil && value.Comment == nil {
			return false
		}
	}
	return true
}

func examples(all []*doc.Example) {
	for _, example := range all {
		name := "Example"
		if example.Suffix != "" {
			name += " (" + example.Suffix + ")"
		}
		fmt.Printf("<details><summary>%s</summary>\n", html.EscapeString(name))
		os.Stdout.Write(page.HTML(example.Doc))
		fmt.Printf("<pre>%s</pre>\n", source(example.Code))
		if example.Output != "" {
			fmt.Printf("<p>Output:</p>\n<pre>%s</pre>\n", html.EscapeString(example.Output))
		}
		fmt.Println("</details>")
	}
}

func functions(level int, all []*doc.Func) {
	for _, function := range all {
		name := function.Name
		anchor := name
		if function.Recv != "" {
			anchor = strings.TrimPrefix(function.Recv, "*") + "." + name
			name = "(" + function.Recv + ") " + name
		}
		heading(level, anchor, "func "+name)
		fmt.Printf("<pre>%s</pre>\n", source(function.Decl))
		documented(function.Doc, anchor)
		examples(function.Examples)
	}
}

// fields names the public fields of a struct, and the methods of an interface, that no comment of the type names.
func fields(one *doc.Type) {
	for _, spec := range one.Decl.Specs {
		var list *ast.FieldList
		switch found := spec.(*ast.TypeSpec).Type.(type) {
		case *ast.StructType:
			list = found.Fields
		case *ast.InterfaceType:
			list = found.Methods
		default:
			continue
		}
		said := one.Doc
		for _, field := range list.List {
			said += field.Doc.Text() + field.Comment.Text()
		}
		said = strings.ToLower(said)
		for _, field := range list.List {
			for _, name := range field.Names {
				if name.IsExported() && field.Doc == nil && !strings.Contains(said, strings.ToLower(name.Name)) {
					fmt.Fprintln(os.Stderr, one.Name+"."+name.Name)
				}
			}
		}
	}
}

// index writes one line per function and type, with a link.
func index() {
	fmt.Println("<h2 id=\"index\">Index</h2>\n<ul>")
	line := func(anchor, text string) {
		fmt.Printf("<li><a href=\"#%s\"><code>%s</code></a></li>\n", anchor, html.EscapeString(text))
	}
	for _, function := range page.Funcs {
		line(function.Name, "func "+function.Name)
	}
	for _, one := range page.Types {
		line(one.Name, "type "+one.Name)
	}
	fmt.Println("</ul>")
}

func main() {
	if len(os.Args) != 3 {
		fmt.Fprintln(os.Stderr, "usage: go.go FOLDER EXAMPLE")
		os.Exit(2)
	}
	names, err := filepath.Glob(filepath.Join(os.Args[1], "*.go"))
	fail(err)
	sort.Strings(names)
	var parsed []*ast.File
	for _, name := range names {
		file, err := parser.ParseFile(files, name, nil, parser.ParseComments)
		fail(err)
		parsed = append(parsed, file)
	}
	page, err = doc.NewFromFiles(files, parsed, "pendratsoa.dev/pendratsoa")
	fail(err)
	example, err := os.ReadFile(os.Args[2])
	fail(err)

	fmt.Printf("<h1>package %s</h1>\n<pre class=\"example\">%s</pre>\n", page.Name, html.EscapeString(string(example)))
	fmt.Printf("<pre>import %q</pre>\n", page.ImportPath)
	documented(page.Doc, "package")
	examples(page.Examples)
	index()
	fmt.Println("<h2 id=\"constants\">Constants</h2>")
	values(page.Consts)
	fmt.Println("<h2 id=\"variables\">Variables</h2>")
	values(page.Vars)
	fmt.Println("<h2 id=\"functions\">Functions</h2>")
	functions(3, page.Funcs)
	fmt.Println("<h2 id=\"types\">Types</h2>")
	for _, one := range page.Types {
		heading(3, one.Name, "type "+one.Name)
		fmt.Printf("<pre>%s</pre>\n", source(one.Decl))
		documented(one.Doc, one.Name)
		fields(one)
		examples(one.Examples)
		values(one.Consts)
		values(one.Vars)
		functions(4, one.Funcs)
		functions(4, one.Methods)
	}
}

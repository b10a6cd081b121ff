// Nodes and attributes: each line is one call of the DOM. It follows docs/language.md, "Nodes" and "Attributes".
// Methods are taken from the prototypes, since a control named `submit` hides that of its form. The function's own
// text runs in the frame.
"use strict";
globalThis.CepageBrowser ??= {};
CepageBrowser.frame ??= [];

CepageBrowser.frame.push(function nodes(run) {
    // Attributes by which an element would fetch, or go elsewhere, without a policy that could hold it back.
    const LEAVING = new Map([["meta", ["http-equiv"]], ["link", ["rel"]]]);

    function set(variable, node) {
        run.variables.set(variable, node);
        return run.number(node);
    }

    const documentOf = (operand, here) => {
        const node = operand ? run.node(operand, here) : document;
        if (!(node instanceof Document)) throw new TypeError("it is no document");
        return node;
    };
    const elementOf = (operand, here) => {
        const node = run.node(operand, here);
        if (!(node instanceof Element)) throw new TypeError("it is no element");
        return node;
    };

    function emptyDocument() {
        const made = run.bare(document).implementation.createHTMLDocument("");
        made.replaceChildren();
        return made;
    }

    function create([variable, name, is, within], here) {
        const owner = documentOf(within, here);
        const isFirst = is !== undefined && owner === document && run.isUpgradedAtOnce(name, is);
        const options = is === undefined ? [] : [{ is }];
        return run.make(isFirst ? 1 : 0, () => set(variable, run.bare(owner).createElement(name, ...options)));
    }

    // All copies stand before a constructor runs. `copies` has each node with its copy.
    function clone([variable, operand, deep], here) {
        const node = run.node(operand, here);
        const originals = deep ? [...run.inOrder(node)] : [node];
        return run.make(originals.length, (kept) => {
            const reply = set(variable, Node.prototype.cloneNode.call(node, Boolean(deep)));
            run.copies = originals.map((original, at) => [original, kept.nodes[at]]).filter(([, copy]) => copy);
            return reply;
        });
    }

    function detach([operand], here) {
        const node = run.node(operand, here);
        const { remove } = node instanceof CharacterData ? CharacterData.prototype : Element.prototype;
        remove.call(node);
    }

    function setAttribute([operand, name, value], here) {
        const node = elementOf(operand, here);
        const leaving = LEAVING.get(node.localName) || [];
        if (leaving.includes(name.toLowerCase())) run.stop("leaves", `${node.localName} ${name}`);
        Element.prototype.setAttribute.call(node, name, run.value(value, here));
    }

    Object.assign(run.operations, {
        create,
        text: ([variable, text, within], here) => (
            run.make(0, () => set(variable, run.bare(documentOf(within, here)).createTextNode(text)))),
        doc: ([variable]) => run.make(0, () => set(variable, emptyDocument())),
        shadow: ([variable, host], here) => (
            run.make(0, () => set(variable, elementOf(host, here).attachShadow({ mode: "open" })))),
        clone,
        append: ([parent, node], here) => {
            Node.prototype.appendChild.call(run.node(parent, here), run.node(node, here));
        },
        before: ([parent, node, child], here) => {
            Node.prototype.insertBefore.call(run.node(parent, here), run.node(node, here), run.node(child, here));
        },
        remove: ([parent, node], here) => {
            Node.prototype.removeChild.call(run.node(parent, here), run.node(node, here));
        },
        detach,
        adopt: ([owner, node], here) => {
            Document.prototype.adoptNode.call(documentOf(owner, here), run.node(node, here));
        },
        upgrade: ([node], here) => customElements.upgrade(run.node(node, here)),
        let: ([variable, node], here) => { run.variables.set(variable, run.node(node, here)); },
        setattr: setAttribute,
        delattr: ([node, name], here) => Element.prototype.removeAttribute.call(elementOf(node, here), name),
    });
    run.elementOf = elementOf;
});

// Classes of a script as classes of JavaScript: their parts, their constructors and callbacks. It follows
// docs/language.md, "Classes" and "Constructors". The function's own text runs in the frame.
"use strict";
globalThis.CepageBrowser ??= {};
CepageBrowser.frame ??= [];

CepageBrowser.frame.push(function classes(run) {
    const known = new Map();
    const byName = new Map();
    const byPrototype = new WeakMap();
    const constructing = new Set();
    const or = (value, otherwise) => (value === null ? otherwise : value);

    const quotedOrNull = (value) => (value === null ? "null" : run.quote(value));

    // What each callback writes of its arguments, and what @1 to @3 are in it.
    const TOLD = {
        connected: () => ({ text: "", at: [] }),
        disconnected: () => ({ text: "", at: [] }),
        formReset: () => ({ text: "", at: [] }),
        adopted: (before, since) => {
            const at = [run.number(before), run.number(since)];
            return { text: ` ${at.join(" ")}`, at };
        },
        attribute: (name, before, since) => ({
            text: ` ${run.quote(name)} ${[before, since].map(quotedOrNull).join(" ")}`,
            at: [name, or(before, ""), or(since, "")],
        }),
        formAssociated: (form) => ({ text: form ? ` ${run.number(form)}` : " null", at: [form ? run.number(form) : ""] }),
        formDisabled: (disabled) => ({ text: ` ${disabled}`, at: [String(disabled)] }),
        formStateRestore: (state, mode) => ({ text: ` ${run.quote(String(state))} ${mode}`, at: [String(state), mode] }),
    };
    const methodOf = (callback) => (callback === "attribute" ? "attributeChangedCallback" : `${callback}Callback`);

    function call(owner, callback, node, given) {
        run.within(() => {
            const { text, at } = TOLD[callback](...given);
            run.write(`call ${run.number(node)} ${callback}${text}`, { subject: run.facts(node) });
            run.body(owner, owner.bodies.get(callback), { self: () => node, at });
        });
    }

    const has = (self) => {
        try { return Boolean(self()); } catch { return false; }
    };

    // The base call. A second one outside of an upgrade makes a node before it is refused, and that has a number too.
    function baseCall(self, base) {
        const second = has(self);
        try {
            base();
        } catch (error) {
            if (second && error instanceof ReferenceError) run.skipNumber();
            throw error;
        }
        run.number(self());
        constructing.add(self());
    }

    function construct(owner, self, base) {
        return run.within(() => {
            run.write(`construct ${owner.name}`);
            const actions = owner.bodies.get("constructor");
            try {
                if (!actions) return void baseCall(self, base);
                return run.body(owner, actions, { self, at: [], base: () => baseCall(self, base) });
            } finally {
                if (has(self)) constructing.delete(self());
            }
        });
    }

    // The class of JavaScript. It is made anew where a part has come since; that ends when a definition has it.
    function classFor(owner, Base) {
        if (owner.defined || (owner.made && Object.getPrototypeOf(owner.made) === Base)) return owner.made;
        const made = class extends Base {
            constructor() {
                const end = construct(owner, () => this, () => super());
                if (end && end.node) return end.node;
            }
        };
        for (const callback of owner.bodies.keys()) {
            if (callback === "constructor") continue;
            made.prototype[methodOf(callback)] = function told(...given) { call(owner, callback, this, given); };
        }
        made.observedAttributes = owner.observed;
        made.disabledFeatures = owner.disabled;
        made.formAssociated = owner.associated;
        byPrototype.set(made.prototype, owner);
        owner.made = made;
        return made;
    }

    function classNamed(name) {
        if (!known.has(name)) throw new TypeError("there is no such class");
        return known.get(name);
    }

    // A class that may get a part.
    function open(name) {
        const owner = classNamed(name);
        if (owner.defined) throw new DOMException("a definition has the class", "NotSupportedError");
        owner.made = null;
        return owner;
    }

    function bodyOf(name, callback) {
        const { bodies } = open(name);
        if (!bodies.has(callback)) bodies.set(callback, []);
        return bodies.get(callback);
    }

    const parts = {
        class: (name) => {
            if (known.has(name)) throw new DOMException("there is such a class", "NotSupportedError");
            known.set(name, { name, bodies: new Map(), observed: [], disabled: [], associated: false, count: 0n, kept: "" });
        },
        on: (name, callback, action) => bodyOf(name, callback).push(action),
        has: (name, callback) => bodyOf(name, callback),
        observe: (name, first, others) => open(name).observed.push(first, ...others),
        associate: (name) => { open(name).associated = true; },
        "disable shadow": (name) => open(name).disabled.push("shadow"),
        "disable internals": (name) => open(name).disabled.push("internals"),
    };

    // The interface of the elements that a definition extends.
    function baseFor(extended) {
        if (extended === undefined) return HTMLElement;
        try {
            return run.bare(document).implementation.createHTMLDocument("").createElement(extended).constructor;
        } catch {
            return HTMLElement;
        }
    }

    function define([name, className, extended]) {
        const owner = classNamed(className);
        const made = classFor(owner, baseFor(extended));
        const { defined } = owner;
        const isNew = !customElements.get(name);
        owner.defined = defined || { name, extended };
        if (isNew && extended === undefined) byName.set(name, owner);
        try {
            customElements.define(name, made, extended === undefined ? undefined : { extends: extended });
        } catch (error) {
            owner.defined = defined;
            if (isNew) byName.delete(name);
            throw error;
        }
    }

    run.operations.define = define;
    run.operations.new = ([variable, className]) => {
        const owner = classNamed(className);
        return run.make(0, () => {
            const node = Reflect.construct(classFor(owner, HTMLElement), []);
            run.variables.set(variable, node);
            return run.number(node);
        });
    };

    // The class by whose definition the node is what it is; one that its upgrade has lost has none any more. One that
    // its constructor gave without a base call has the definition, and not the prototype.
    run.classOf = (node) => {
        const owner = byPrototype.get(Object.getPrototypeOf(node)) || byName.get(run.bare(node).localName);
        return owner && owner.defined && (constructing.has(node) || run.bare(node).matches(":defined")) ? owner : null;
    };
    run.isAssociated = (node) => {
        const owner = run.classOf(node);
        return Boolean(owner && owner.associated && owner.defined.extended === undefined);
    };
    run.constructed = () => [...constructing];
    run.isConstructing = (node) => constructing.has(node);
    run.isLost = (node) => byPrototype.has(Object.getPrototypeOf(node)) && !run.classOf(node);
    // Whether an element is made first and then upgraded: by a definition that extends one.
    run.isUpgradedAtOnce = (name, is) => {
        const extended = run.definitionNamed(is)?.defined.extended;
        return extended !== undefined && extended === name.toLowerCase() && !byName.has(extended);
    };
    run.definitionNamed = (name) => [...known.values()].find((owner) => owner.defined && owner.defined.name === name);
    run.part = ({ word, args }) => parts[word](...args);
});

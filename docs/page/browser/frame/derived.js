// What of a control cepage derives and a browser keeps: which radio button is checked, which option is chosen, which
// value shows, who owns it and whether it is off. It follows docs/controls.md and docs/owners.md, from flags that the
// lines have set (frame/watch.js). The reasons for a difference ask for it; the browser is not changed by it. The
// function's own text runs in the frame.
"use strict";
globalThis.CepageBrowser ??= {};
CepageBrowser.frame ??= [];

CepageBrowser.frame.push(function derived(run) {
    const flags = new WeakMap();
    const SETS = ["edited", "valueSet", "retyped", "moved", "shallowCopy", "notReset", "copied"];
    const sets = Object.fromEntries(SETS.map((name) => [name, new WeakSet()]));
    const isValues = new WeakMap();
    const rawValues = new WeakMap();
    const ownAttributes = new WeakMap();
    const isRadio = (node) => node instanceof HTMLInputElement && run.typeOf(node) === "radio";

    // The radio buttons of a group, in tree order; one without a name is alone.
    function groupOf(node) {
        const name = node.getAttribute("name");
        const root = run.bare(node.getRootNode());
        if (!name || !root.querySelectorAll) return [node];
        return [root, ...root.querySelectorAll("input")].filter((other) => isRadio(other) && other.form === node.form
            && other.getAttribute("name") === name);
    }

    // The options of a select: its children, and those of its optgroups.
    function optionsOf(select) {
        const within = (child) => (child instanceof HTMLOptGroupElement ? [...child.children] : [child]);
        return [...select.children].flatMap(within).filter((child) => child instanceof HTMLOptionElement);
    }

    function selectOf(option) {
        const above = option.parentNode instanceof HTMLOptGroupElement ? option.parentNode.parentNode : option.parentNode;
        return above instanceof HTMLSelectElement ? above : null;
    }

    const isFlagged = (node) => (flags.has(node) ? flags.get(node)
        : node.hasAttribute(node instanceof HTMLOptionElement ? "selected" : "checked"));
    const isOff = (option) => option.hasAttribute("disabled")
        || (option.parentNode instanceof HTMLOptGroupElement && option.parentNode.hasAttribute("disabled"));

    function chosenOf(select) {
        const options = optionsOf(select);
        const flagged = options.filter(isFlagged);
        if (select.multiple) return flagged;
        const one = flagged.at(-1) || options.find((option) => !isOff(option));
        return one ? [one] : [];
    }

    const isDerivedOn = (radio) => groupOf(radio).filter(isFlagged).at(-1) === radio;

    // ---- form owners and disabled states, by the tree as it is

    const formAbove = (node) => (node.parentNode instanceof Element ? run.bare(node.parentNode).closest("form") : null);

    function ownerOf(node) {
        if (!node.isConnected || !node.hasAttribute("form")) return formAbove(node);
        const id = node.getAttribute("form");
        const found = id ? run.bare(node.getRootNode()).querySelector(`[id="${CSS.escape(id)}"]`) : null;
        return found instanceof HTMLFormElement ? found : null;
    }

    function isSpared(node, fieldset) {
        const legend = [...fieldset.children].find((child) => child instanceof HTMLLegendElement);
        return Boolean(legend) && legend.contains(node);
    }

    function isOffByTree(node) {
        if (node.hasAttribute("disabled")) return true;
        for (let above = node.parentNode; above instanceof Element; above = run.bare(above).parentNode) {
            const isFieldset = above instanceof HTMLFieldSetElement;
            if (isFieldset && above.hasAttribute("disabled") && !isSpared(node, above)) return true;
        }
        return false;
    }

    // The value of an input where what was set stays with it, whatever its type is since; of a textarea what was set.
    function keptValue(node) {
        if (node instanceof HTMLTextAreaElement) {
            if (!rawValues.has(node)) return sets.notReset.has(node) ? node.defaultValue : node.value;
            return rawValues.get(node).replace(/\r\n|\r/g, "\n");
        }
        const own = ownAttributes.has(node) ? ownAttributes.get(node) : node.getAttribute("value");
        const attribute = (otherwise) => (own === null ? otherwise : own);
        if (run.is.checkable(node)) return attribute("on");
        if (!run.is.text(node)) return attribute("");
        return (rawValues.has(node) ? rawValues.get(node) : attribute("")).replace(/[\r\n]/g, "");
    }

    run.kept = { flags, sets, isValues, rawValues, ownAttributes };
    run.derived = {
        isRadio, groupOf, optionsOf, selectOf, isFlagged, isOff, chosenOf, isDerivedOn, formAbove, ownerOf, isOffByTree,
        keptValue,
    };
});

#!/usr/bin/env python3
"""A script of requests for `hnc run`, and what the rules have it answer.

Usage: table/answers.py script >crates/hnc/stdin
       table/answers.py answers >crates/hnc/stdout
       table/answers.py rows

Each row is a line of the script and, written by hand beside it, what it is to answer: by docs/BEHAVIOUR.md and
the definitions in the crates' specs/, never by what the program printed. A row that writes has the next version.
The rule that a row on the tree breaks is written beside it too, and held against the plain rules of rules.py.
`rows` prints how many rows each part has. The program is run with the words of crates/hnc/args.
"""
import json
import sys

from quotas import quota_members, quotas
from rules import Tree
from script import (
    ACTIVE,
    ALL_HIERARCHIES,
    BAD_LABEL,
    BAD_LINE,
    BAD_NAME,
    BAD_PATH,
    CONFIGMAPS,
    CONFIGS,
    EVENTS,
    HIERARCHIES,
    HIERARCHIES_IN,
    HNC,
    NAMESPACES,
    NOT_JSON,
    NOT_WHOLE,
    NO_METHOD,
    NO_PATH,
    OTHER_PLACE,
    ROLES,
    RULES,
    SECRETS,
    SERVICES,
    TOO_LARGE,
    TOO_LONG,
    TOO_MANY_LABELS,
    Table,
    bad_query,
    broken,
    configmap,
    delete,
    exists,
    get,
    has_version,
    missing,
    namespace,
    not_found,
    not_kind,
    post,
    put,
    text,
    thing,
    with_version,
    wrong_type,
)

# ---- worked examples

# Kind, resource, path in a namespace, name, what a first body has, what is stored of it, and the same of a second body.
# Each name comes behind `a` and `a-b`.
STORED = [
    (
        "Role", "roles.rbac.authorization.k8s.io", "/apis/rbac.authorization.k8s.io/v1/namespaces/{}/roles", "system:reader",
        {"rules": [{"verbs": ["get", "list"], "apiGroups": [""], "resources": ["pods"]}]}, {"rules": [{"apiGroups": [""], "resources": ["pods"], "verbs": ["get", "list"]}]},
        {"rules": []}, {"rules": []},
    ),
    (
        "RoleBinding", "rolebindings.rbac.authorization.k8s.io", "/apis/rbac.authorization.k8s.io/v1/namespaces/{}/rolebindings", "readers",
        {"subjects": [{"kind": "User", "name": "ann"}], "roleRef": {"kind": "Role", "name": "reader"}}, {"roleRef": {"kind": "Role", "name": "reader"}, "subjects": [{"kind": "User", "name": "ann"}]},
        {"roleRef": {"kind": "Role", "name": "writer"}}, {"roleRef": {"kind": "Role", "name": "writer"}},
    ),
    (
        "ConfigMap", "configmaps", "/api/v1/namespaces/{}/configmaps", "settings",
        {"data": {"b": "2", "a": "1"}, "immutable": False}, {"data": {"a": "1", "b": "2"}, "immutable": False},
        {"data": {"a": "1"}}, {"data": {"a": "1"}},
    ),
    (
        "Secret", "secrets", "/api/v1/namespaces/{}/secrets", "token",
        {"type": "kubernetes.io/service-account-token", "data": {"token": "c2VjcmV0"}}, {"data": {"token": "c2VjcmV0"}, "type": "kubernetes.io/service-account-token"},
        {"type": "Opaque"}, {"type": "Opaque"},
    ),
    (
        "NetworkPolicy", "networkpolicies.networking.k8s.io", "/apis/networking.k8s.io/v1/namespaces/{}/networkpolicies", "deny.all",
        {"spec": {"podSelector": {}, "policyTypes": ["Ingress"]}}, {"spec": {"podSelector": {}, "policyTypes": ["Ingress"]}},
        {}, {},
    ),
    (
        "LimitRange", "limitranges", "/api/v1/namespaces/{}/limitranges", "limits",
        {"spec": {"limits": [{"type": "Container", "max": {"cpu": "2"}}]}}, {"spec": {"limits": [{"max": {"cpu": "2"}, "type": "Container"}]}},
        {"spec": None}, {"spec": None},
    ),
    (
        "Pod", "pods", "/api/v1/namespaces/{}/pods", "web-0",
        {"spec": {"containers": [{"name": "web", "image": "nginx", "resources": {"limits": {"cpu": 2}}}]}, "status": {"phase": "Running"}},
        {"spec": {"containers": [{"image": "nginx", "name": "web", "resources": {"limits": {"cpu": 2}}}]}, "status": {"phase": "Running"}},
        {"status": {"phase": "Failed"}}, {"status": {"phase": "Failed"}},
    ),
    (
        "PersistentVolumeClaim", "persistentvolumeclaims", "/api/v1/namespaces/{}/persistentvolumeclaims", "data",
        {"spec": {"resources": {"requests": {"storage": "5Gi"}}, "accessModes": []}}, {"spec": {"accessModes": [], "resources": {"requests": {"storage": "5Gi"}}}},
        {"spec": {"resources": None}}, {"spec": {"resources": None}},
    ),
    (
        "HierarchicalResourceQuota", "hierarchicalresourcequotas.hnc.x-k8s.io", "/apis/hnc.x-k8s.io/v1alpha2/namespaces/{}/hierarchicalresourcequotas", "few",
        {"spec": {"hard": {"pods": 10, "limits.cpu": "1.5", "count/roles.rbac.authorization.k8s.io": "1k"}, "x": 1}, "status": {"used": {"pods": "7"}}},
        {"spec": {"hard": {"count/roles.rbac.authorization.k8s.io": "1k", "limits.cpu": "1.5", "pods": "10"}}},
        {"spec": {"hard": {}}}, {"spec": {"hard": {}}},
    ),
    (
        "Service", "services", "/api/v1/namespaces/{}/services", "web",
        {"spec": {"ports": [{"port": 80, "targetPort": -1}]}, "status": {"loadBalancer": {}}}, {"spec": {"ports": [{"port": 80, "targetPort": -1}]}, "status": {"loadBalancer": {}}},
        {"spec": []}, {"spec": []},
    ),
]


def namespaces(t):
    t.part("worked examples: namespaces")
    t.tells(0)
    t.refuses(get(f"{EVENTS}?since=1"), bad_query("since"))
    acme = t.creates(post(NAMESPACES, thing("Namespace", "acme")), namespace("acme"))
    t.tells(0, ("ADDED", acme))
    t.tells(1)
    t.refuses(post(NAMESPACES, thing("Namespace", "acme")), exists("namespaces", "acme"))
    t.shows(get(f"{NAMESPACES}/acme"), acme)
    t.refuses(get(f"{NAMESPACES}/none"), not_found("namespaces", "none"))
    t.refuses("DELETE /x", NO_PATH)
    t.lists(get(NAMESPACES), "Namespace", [acme])
    t.refuses(put(f"{NAMESPACES}/acme", with_version(thing("Namespace", "acme"), 7)), has_version("namespaces", "acme", 1))
    t.shows(put(f"{NAMESPACES}/acme", thing("Namespace", "acme")), acme)
    t.shows(put(f"{NAMESPACES}/acme", with_version(thing("Namespace", "acme"), 1)), acme)
    labelled = thing("Namespace", "acme", labels={"team": "a"})
    acme = t.changes(put(f"{NAMESPACES}/acme", labelled), namespace("acme", labels={"team": "a"}))
    t.refuses(put(f"{NAMESPACES}/acme", with_version(labelled, 1)), has_version("namespaces", "acme", 2))
    for version in ("0", "02", "+2", " 2", "2 ", "2a", "-2", "two", "9223372036854775807", "9223372036854775808", "18446744073709551618", "00000000000000000002"):
        t.refuses(put(f"{NAMESPACES}/acme", with_version(labelled, version)), has_version("namespaces", "acme", 2))
    t.shows(put(f"{NAMESPACES}/acme", with_version(labelled, "")), acme)
    t.shows(put(f"{NAMESPACES}/acme", with_version(labelled, "2")), acme)
    t.refuses(put(f"{NAMESPACES}/none", with_version(thing("Namespace", "none"), "7")), not_found("namespaces", "none"))
    t.refuses(post(CONFIGMAPS, '{"apiVersion":"v1","kind":"ConfigMap","metadata":{"name":"x"},"n":1.5}'), NOT_WHOLE)
    t.refuses(delete(f"{NAMESPACES}/none"), not_found("namespaces", "none"))
    t.shows(get(f"{NAMESPACES}/acme"), acme)
    beta = t.creates(post(NAMESPACES, with_version(thing("Namespace", "beta"), 9)), namespace("beta"))
    dashed = t.creates(post(NAMESPACES, thing("Namespace", "acme-2")), namespace("acme-2"))
    t.lists(get(NAMESPACES), "Namespace", [acme, dashed, beta])


def configurations(t):
    t.part("worked examples: configurations of the cluster")
    resource = "hncconfigurations.hnc.x-k8s.io"
    t.lists(get(CONFIGS), "HNCConfiguration", [])
    said = thing("HNCConfiguration", "config", spec={"resources": [{"resource": "secrets", "mode": "Remove"}, {"group": "networking.k8s.io", "resource": "networkpolicies"}]})
    kept = thing("HNCConfiguration", "config", spec={"resources": [{"group": "", "mode": "Remove", "resource": "secrets"}, {"group": "networking.k8s.io", "mode": "Propagate", "resource": "networkpolicies"}]})
    stored = t.creates(post(CONFIGS, said), kept)
    t.refuses(post(CONFIGS, said), exists(resource, "config"))
    t.shows(get(f"{CONFIGS}/config"), stored)
    t.shows(put(f"{CONFIGS}/config", said), stored)
    t.lists(get(CONFIGS), "HNCConfiguration", [stored])
    t.refuses(put(f"{CONFIGS}/config", with_version(said, 1)), has_version(resource, "config", t.version))
    stored = t.changes(put(f"{CONFIGS}/config", thing("HNCConfiguration", "config")), thing("HNCConfiguration", "config", spec={"resources": []}))
    t.shows(put(f"{CONFIGS}/config", thing("HNCConfiguration", "config", spec={"resources": []}, status={"x": 1})), stored)
    t.refuses(put(f"{CONFIGS}/other", thing("HNCConfiguration", "other")), not_found(resource, "other"))
    t.removes(delete(f"{CONFIGS}/config"))
    t.refuses(delete(f"{CONFIGS}/config"), not_found(resource, "config"))
    t.refuses(get(f"{CONFIGS}/config"), not_found(resource, "config"))
    t.lists(get(CONFIGS), "HNCConfiguration", [])


HIERARCHY = "hierarchyconfigurations.hnc.x-k8s.io"


def hierarchies(t):
    t.part("worked examples: HierarchyConfiguration")
    kind, name = "HierarchyConfiguration", "hierarchy"
    here, there = HIERARCHIES, HIERARCHIES_IN.format("beta")
    said = thing(kind, name, spec={"parent": "beta"})
    t.refuses(get(f"{here}/{name}"), not_found(HIERARCHY, name))
    t.refuses(delete(f"{here}/{name}"), not_found(HIERARCHY, name))
    t.refuses(put(f"{here}/{name}", said), not_found(HIERARCHY, name))
    t.refuses(post(HIERARCHIES_IN.format("none"), said), not_found("namespaces", "none"))
    t.lists(get(here), kind, [])
    stored = t.creates(post(here, said), thing(kind, name, "acme", spec={"parent": "beta"}))
    t.refuses(post(here, said), exists(HIERARCHY, name))
    t.shows(get(f"{here}/{name}"), stored)
    t.shows(put(f"{here}/{name}", said), stored)
    t.refuses(get(f"{there}/{name}"), not_found(HIERARCHY, name))
    second = {"allowCascadingDeletion": True, "parent": "beta"}
    t.refuses(put(f"{here}/{name}", with_version(thing(kind, name, spec=second), 1)), has_version(HIERARCHY, name, t.version))
    last = t.creates(post(there, thing(kind, name, spec={"parent": "acme-2", "allowCascadingDeletion": True})), thing(kind, name, "beta", spec={"allowCascadingDeletion": True, "parent": "acme-2"}))
    between = t.creates(post(HIERARCHIES_IN.format("acme-2"), thing(kind, name)), thing(kind, name, "acme-2", spec={}))
    t.lists(get(here), kind, [stored])
    t.lists(get(there), kind, [last])
    t.lists(get(HIERARCHIES_IN.format("none")), kind, [])
    t.lists(get(ALL_HIERARCHIES), kind, [stored, between, last])
    changed = t.changes(put(f"{here}/{name}", with_version(thing(kind, name, spec=second), stored["metadata"]["resourceVersion"])), thing(kind, name, "acme", spec=second))
    t.shows(get(f"{here}/{name}"), changed)
    for ns in ("acme", "acme-2", "beta"):
        t.removes(delete(f"{HIERARCHIES_IN.format(ns)}/{name}"))
    t.refuses(delete(f"{here}/{name}"), not_found(HIERARCHY, name))
    t.refuses(get(f"{here}/{name}"), not_found(HIERARCHY, name))
    t.lists(get(ALL_HIERARCHIES), kind, [])


def stored_kinds(t):
    for kind, resource, path, name, first, first_kept, second, second_kept in STORED:
        t.part(f"worked examples: {kind}")
        here, there, everywhere = path.format("acme"), path.format("beta"), path.replace("namespaces/{}/", "")
        said = thing(kind, name, **first)
        t.refuses(get(f"{here}/{name}"), not_found(resource, name))
        t.refuses(delete(f"{here}/{name}"), not_found(resource, name))
        t.refuses(put(f"{here}/{name}", said), not_found(resource, name))
        t.refuses(post(path.format("none"), said), not_found("namespaces", "none"))
        t.lists(get(here), kind, [])
        stored = t.creates(post(here, said), thing(kind, name, "acme", **first_kept))
        t.refuses(post(here, said), exists(resource, name))
        t.shows(get(f"{here}/{name}"), stored)
        t.shows(put(f"{here}/{name}", said), stored)
        t.refuses(get(f"{there}/{name}"), not_found(resource, name))
        t.refuses(put(f"{here}/{name}", with_version(thing(kind, name, **second), 1)), has_version(resource, name, t.version))
        last = t.creates(post(there, thing(kind, "a", "beta", **second)), thing(kind, "a", "beta", **second_kept))
        next_one = t.creates(post(here, thing(kind, "a-b", "acme", **second)), thing(kind, "a-b", "acme", **second_kept))
        begin = t.creates(post(here, thing(kind, "a", "acme", **second)), thing(kind, "a", "acme", **second_kept))
        in_acme = [begin, next_one, stored]
        t.lists(get(here), kind, in_acme)
        t.lists(get(there), kind, [last])
        t.lists(get(path.format("none")), kind, [])
        t.lists(get(everywhere), kind, [*in_acme, last])
        changed = t.changes(put(f"{here}/{name}", with_version(thing(kind, name, **second), stored["metadata"]["resourceVersion"])), thing(kind, name, "acme", **second_kept))
        t.shows(get(f"{here}/{name}"), changed)
        for one in (f"{here}/{name}", f"{here}/a", f"{here}/a-b", f"{there}/a"):
            t.removes(delete(one))
        t.refuses(delete(f"{here}/{name}"), not_found(resource, name))
        t.refuses(get(f"{here}/{name}"), not_found(resource, name))
        t.lists(get(everywhere), kind, [])


# Roles in the order of lists, by namespace and name.
IN_ORDER = [("acme", "Z"), ("acme", "a"), ("acme", "a-b"), ("acme", "a.b"), ("acme", "aa"), ("acme-2", "a"), ("beta", "!"), ("beta", "a")]
# The order in which they are made.
MADE = [("beta", "a"), ("acme", "a.b"), ("acme", "aa"), ("acme-2", "a"), ("acme", "Z"), ("beta", "!"), ("acme", "a-b"), ("acme", "a")]


def order_of_lists(t):
    t.part("worked examples: order of lists")
    path = "/apis/rbac.authorization.k8s.io/v1/namespaces/{}/roles"
    made = {}
    for ns, name in MADE:
        made[ns, name] = t.creates(post(path.format(ns), thing("Role", name)), thing("Role", name, ns))
    in_order = [made[place] for place in IN_ORDER]
    t.lists(get("/apis/rbac.authorization.k8s.io/v1/roles"), "Role", in_order)
    t.lists(get(path.format("acme")), "Role", in_order[:5])
    t.lists(get(path.format("acme-2")), "Role", in_order[5:6])
    t.lists(get(path.format("beta")), "Role", in_order[6:])
    t.lists(get(path.format("acm")), "Role", [])
    t.lists(get("/apis/rbac.authorization.k8s.io/v1/rolebindings"), "RoleBinding", [])
    for ns, name in MADE:
        t.removes(delete(f"{path.format(ns)}/{name}"))
    again = t.creates(post(path.format("beta"), thing("Role", "a")), thing("Role", "a", "beta"))
    t.lists(get("/apis/rbac.authorization.k8s.io/v1/roles"), "Role", [again])
    t.removes(delete(f"{path.format('beta')}/a"))


USERS_METADATA = {"creationTimestamp": None, "generation": 3, "managedFields": [{"manager": "kubectl"}], "selfLink": "", "uid": "0-1", "ownerReferences": [], "finalizers": ["x"]}


def users_members(t):
    t.part("worked examples: members that users add")
    said = thing("ConfigMap", "users", data={"k": "v"}, status={"x": 1}, extra=None)
    said["metadata"].update(USERS_METADATA, namespace=None, labels=None, annotations=None, resourceVersion=None)
    stored = t.creates(post(CONFIGMAPS, said), configmap("users", data={"k": "v"}, extra=None, status={"x": 1}))
    t.shows(put(f"{CONFIGMAPS}/users", said), stored)
    t.shows(get(f"{CONFIGMAPS}/users"), stored)
    t.removes(delete(f"{CONFIGMAPS}/users"))
    said = thing("Namespace", "users", spec={"finalizers": ["kubernetes"]}, status={"phase": "Terminating"}, data={})
    said["metadata"].update(USERS_METADATA, namespace="")
    stored = t.creates(post(NAMESPACES, said), namespace("users"))
    t.shows(put(f"{NAMESPACES}/users", said), stored)
    t.tries(HIERARCHIES, [
        (thing("HierarchyConfiguration", "hierarchy", spec={"parent": "beta", "x": 1}, status={"children": ["beta"], "conditions": []}, data=1), thing("HierarchyConfiguration", "hierarchy", "acme", spec={"parent": "beta"})),
    ])
    t.tries(CONFIGS, [
        (thing("HNCConfiguration", "config", spec={"resources": [{"resource": "limitranges", "x": 1}], "types": []}, status={}, data=1), thing("HNCConfiguration", "config", spec={"resources": [{"group": "", "mode": "Propagate", "resource": "limitranges"}]})),
    ])
    both = thing("ConfigMap", "both", labels={"b": "2", "a": "1"}, annotations={"z": "", "a": "\n\u0001\"\\é😀"})
    t.tries(CONFIGMAPS, [(both, configmap("both", labels={"a": "1", "b": "2"}, annotations={"a": "\n\u0001\"\\é😀", "z": ""}))])
    t.tries(CONFIGMAPS, [(thing("ConfigMap", "empty", labels={}, annotations={}), configmap("empty"))])


# ---- bodies

def cm(members, name="x"):
    """The text of a ConfigMap's body with members of its own."""
    return f'{{"apiVersion":"v1","kind":"ConfigMap","metadata":{{"name":"{name}"}},{members}}}'


def cm_metadata(metadata):
    """The text of a ConfigMap's body with other metadata."""
    return f'{{"apiVersion":"v1","kind":"ConfigMap","metadata":{metadata}}}'


def nested(depth):
    """Lists in one another."""
    return "[" * depth + "]" * depth


def nested_value(depth):
    value = []
    for _ in range(depth - 1):
        value = [value]
    return value


MINIMAL = '{"apiVersion":"v1","kind":"ConfigMap","metadata":{"name":"x"}}'

JSON_FAULTS = [
    ("", NOT_JSON),
    (" ", NOT_JSON),
    ("nonsense", NOT_JSON),
    ("{", NOT_JSON),
    ("}", NOT_JSON),
    (MINIMAL[:-1], NOT_JSON),
    (MINIMAL[:-2], NOT_JSON),
    (MINIMAL[:30], NOT_JSON),
    (MINIMAL + "x", NOT_JSON),
    (MINIMAL + " {}", NOT_JSON),
    (MINIMAL + "}", NOT_JSON),
    (MINIMAL + ",", NOT_JSON),
    ("\ufeff" + MINIMAL, NOT_JSON),
    ("\u00a0" + MINIMAL, NOT_JSON),
    ("\f" + MINIMAL, NOT_JSON),
    (cm('"a":1,'), NOT_JSON),
    (cm(',"a":1'), NOT_JSON),
    (cm('"a" 1'), NOT_JSON),
    (cm('a:1'), NOT_JSON),
    (cm("'a':1"), NOT_JSON),
    (cm('1:1'), NOT_JSON),
    (cm('"a":'), NOT_JSON),
    (cm('"a":[1,]'), NOT_JSON),
    (cm('"a":[1 2]'), NOT_JSON),
    (cm('"a":/**/1'), NOT_JSON),
    (cm('"a":tru'), NOT_JSON),
    (cm('"a":True'), NOT_JSON),
    (cm('"a":nulls'), NOT_JSON),
    (cm('"a":NaN'), NOT_JSON),
    (cm('"a":Infinity'), NOT_JSON),
    (cm('"a":01'), NOT_JSON),
    (cm('"a":-01'), NOT_JSON),
    (cm('"a":+1'), NOT_JSON),
    (cm('"a":.5'), NOT_JSON),
    (cm('"a":1.'), NOT_JSON),
    (cm('"a":1e'), NOT_JSON),
    (cm('"a":-'), NOT_JSON),
    (cm('"a":0x1'), NOT_JSON),
    (cm('"a":"\t"'), NOT_JSON),
    (cm('"a":"\u0000"'), NOT_JSON),
    (cm('"a":"\u001f"'), NOT_JSON),
    (cm(r'"a":"\x"'), NOT_JSON),
    (cm(r'"a":"\u12"'), NOT_JSON),
    (cm(r'"a":"\u12g4"'), NOT_JSON),
    (cm(r'"a":"\ud800"'), NOT_JSON),
    (cm(r'"a":"\udc00"'), NOT_JSON),
    (cm(r'"a":"\ud800x"'), NOT_JSON),
    (cm(r'"a":"\ud800\u0041"'), NOT_JSON),
    (cm(r'"a":"\ud800\ud800"'), NOT_JSON),
    (cm(r'"a":"\udc00\ud800"'), NOT_JSON),
    (cm(r'"\ud800":1'), NOT_JSON),
    (cm('"a":1e999'), NOT_JSON),
    (cm('"a":-1e999'), NOT_JSON),
    (cm('"a":1e999,"a":1'), NOT_JSON),
    (cm('"a":1' + "0" * 400), NOT_JSON),
    (nested(128), NOT_JSON),
    (cm(f'"a":{nested(127)}'), NOT_JSON),
    (cm(f'"a":{nested(127)},"a":1'), NOT_JSON),
    (cm(f'"a":{nested(126)}'), configmap("x", a=nested_value(126))),
    (f"  {MINIMAL}  ", configmap("x")),
    ("\t{\r\"apiVersion\" : \"v1\",\t\"kind\":\r\"ConfigMap\" , \"metadata\":{ \"name\":\"x\"\t} }\t", configmap("x")),
    (cm('"a":[ ],"b":{ },"c":[ 1 , 2 ]'), configmap("x", a=[], b={}, c=[1, 2])),
    (cm(r'"a":"\u00e9\ud83d\ude00\u0000\u001F\u007f\/\b\f\n\r\t\"\\"'), configmap("x", a="é😀\u0000\u001f\u007f/\b\f\n\r\t\"\\")),
    (cm(r'"\u0062":1,"a":2'), configmap("x", a=2, b=1)),
    (cm('"é":1,"z":2,"Z":3,"":4'), configmap("x", **{"": 4, "Z": 3, "z": 2, "é": 1})),
    # the last of members with one name counts, and stands once
    (cm('"a":1,"a":2'), configmap("x", a=2)),
    (cm(r'"a":{"k":1,"k":2},"\u0061":{"k":3,"l":4,"k":5}'), configmap("x", a={"k": 5, "l": 4})),
    ('{"kind":"Secret","kind":"ConfigMap","apiVersion":"v2","apiVersion":"v1","metadata":[],"metadata":{"name":1,"name":"x"}}', configmap("x")),
    ('{"kind":"ConfigMap","kind":"Secret","apiVersion":"v1","metadata":{"name":"x"}}', not_kind("ConfigMap")),
    (cm_metadata('{"name":"x","labels":{"a":null,"a":"1"}}'), configmap("x", labels={"a": "1"})),
    # what isn't JSON goes before a number that isn't whole
    (cm('"a":1.5')[:-1], NOT_JSON),
    (cm('"a":1.5') + "x", NOT_JSON),
    (cm('"a":1.5,"b":1e999'), NOT_JSON),
]

NUMBER_FAULTS = [
    (cm('"a":1.5'), NOT_WHOLE),
    (cm('"a":-0'), NOT_WHOLE),
    (cm('"a":-0.0'), NOT_WHOLE),
    (cm('"a":1.0'), NOT_WHOLE),
    (cm('"a":1e3'), NOT_WHOLE),
    (cm('"a":1E3'), NOT_WHOLE),
    (cm('"a":1e+3'), NOT_WHOLE),
    (cm('"a":0e0'), NOT_WHOLE),
    (cm('"a":1e-999'), NOT_WHOLE),
    (cm('"a":18446744073709551616'), NOT_WHOLE),
    (cm('"a":-9223372036854775809'), NOT_WHOLE),
    (cm('"a":1' + "0" * 300), NOT_WHOLE),
    (cm('"a":[[{"b":[0.5]}]]'), NOT_WHOLE),
    (cm_metadata('{"name":"x","generation":1.5}'), NOT_WHOLE),
    (cm('"a":1,"a":1.5'), NOT_WHOLE),
    (cm('"a":1.5,"a":1'), configmap("x", a=1)),
    (cm('"a":[1.5],"a":{"b":-0,"b":0}'), configmap("x", a={"b": 0})),
    (cm('"a":18446744073709551615,"b":-9223372036854775808'), configmap("x", a=18446744073709551615, b=-9223372036854775808)),
    (cm('"a":9223372036854775808,"b":-1,"c":0'), configmap("x", a=9223372036854775808, b=-1, c=0)),
    (cm('"a":"1.5"'), configmap("x", a="1.5")),
    # a number that isn't whole goes before a body that is no object
    ("1.5", NOT_WHOLE),
    ("-0", NOT_WHOLE),
    ("[1.5]", NOT_WHOLE),
    ('{"a":1.5}', NOT_WHOLE),
]

HEAD_FAULTS = [
    ("[]", wrong_type("")),
    (nested(127), wrong_type("")),
    ("null", wrong_type("")),
    ("7", wrong_type("")),
    ("18446744073709551615", wrong_type("")),
    ('"x"', wrong_type("")),
    ("true", wrong_type("")),
    (f"[{MINIMAL}]", wrong_type("")),
    # apiVersion and kind
    ("{}", not_kind("ConfigMap")),
    ('{"kind":"ConfigMap","metadata":{"name":"x"}}', not_kind("ConfigMap")),
    ('{"apiVersion":"v1","metadata":{"name":"x"}}', not_kind("ConfigMap")),
    ('{"apiVersion":"v2","kind":"ConfigMap","metadata":{"name":"x"}}', not_kind("ConfigMap")),
    ('{"apiVersion":"V1","kind":"ConfigMap","metadata":{"name":"x"}}', not_kind("ConfigMap")),
    ('{"apiVersion":"v1 ","kind":"ConfigMap","metadata":{"name":"x"}}', not_kind("ConfigMap")),
    ('{"apiVersion":"","kind":"ConfigMap","metadata":{"name":"x"}}', not_kind("ConfigMap")),
    ('{"apiVersion":null,"kind":"ConfigMap","metadata":{"name":"x"}}', not_kind("ConfigMap")),
    ('{"apiVersion":1,"kind":"ConfigMap","metadata":{"name":"x"}}', not_kind("ConfigMap")),
    ('{"apiVersion":"v1","kind":"configmap","metadata":{"name":"x"}}', not_kind("ConfigMap")),
    ('{"apiVersion":"v1","kind":"Secret","metadata":{"name":"x"}}', not_kind("ConfigMap")),
    ('{"apiVersion":"v1","kind":"ConfigMapList","metadata":{"name":"x"}}', not_kind("ConfigMap")),
    ('{"apiVersion":"v1","kind":null,"metadata":{"name":"x"}}', not_kind("ConfigMap")),
    ('{"apiVersion":"v1","kind":["ConfigMap"],"metadata":{"name":"x"}}', not_kind("ConfigMap")),
    # before the metadata
    ('{"apiVersion":"v1","kind":"Secret"}', not_kind("ConfigMap")),
    ('{"apiVersion":"v2","kind":"ConfigMap","metadata":[]}', not_kind("ConfigMap")),
    # metadata
    ('{"apiVersion":"v1","kind":"ConfigMap"}', missing("metadata")),
    ('{"apiVersion":"v1","kind":"ConfigMap","Metadata":{"name":"x"}}', missing("metadata")),
    (cm_metadata("null"), wrong_type("metadata")),
    (cm_metadata("[]"), wrong_type("metadata")),
    (cm_metadata('"x"'), wrong_type("metadata")),
    (cm_metadata("true"), wrong_type("metadata")),
    # metadata.name
    (cm_metadata("{}"), missing("metadata.name")),
    (cm_metadata('{"generateName":"x-"}'), missing("metadata.name")),
    (cm_metadata('{"name":null}'), wrong_type("metadata.name")),
    (cm_metadata('{"name":7}'), wrong_type("metadata.name")),
    (cm_metadata('{"name":["x"]}'), wrong_type("metadata.name")),
    (cm_metadata('{"name":false}'), wrong_type("metadata.name")),
    (cm_metadata('{"name":""}'), BAD_NAME),
    # metadata.namespace
    (cm_metadata('{"name":"x","namespace":7}'), wrong_type("metadata.namespace")),
    (cm_metadata('{"name":"x","namespace":{}}'), wrong_type("metadata.namespace")),
    (cm_metadata('{"name":"x","namespace":null}'), configmap("x")),
    (cm_metadata('{"name":"x","namespace":"acme"}'), configmap("x")),
    # metadata.resourceVersion, which a POST doesn't heed
    (cm_metadata('{"name":"x","resourceVersion":7}'), wrong_type("metadata.resourceVersion")),
    (cm_metadata('{"name":"x","resourceVersion":["7"]}'), wrong_type("metadata.resourceVersion")),
    (cm_metadata('{"name":"x","resourceVersion":null}'), configmap("x")),
    (cm_metadata('{"name":"x","resourceVersion":""}'), configmap("x")),
    (cm_metadata('{"name":"x","resourceVersion":"7"}'), configmap("x")),
    (cm_metadata('{"name":"x","resourceVersion":"seven"}'), configmap("x")),
    # metadata.labels
    (cm_metadata('{"name":"x","labels":[]}'), wrong_type("metadata.labels")),
    (cm_metadata('{"name":"x","labels":"a"}'), wrong_type("metadata.labels")),
    (cm_metadata('{"name":"x","labels":{"a":null}}'), wrong_type("metadata.labels")),
    (cm_metadata('{"name":"x","labels":{"a":1}}'), wrong_type("metadata.labels")),
    (cm_metadata('{"name":"x","labels":{"a":"1","b":true}}'), wrong_type("metadata.labels")),
    (cm_metadata('{"name":"x","labels":{"a":{}}}'), wrong_type("metadata.labels")),
    (cm_metadata('{"name":"x","labels":null}'), configmap("x")),
    (cm_metadata('{"name":"x","labels":{}}'), configmap("x")),
    # metadata.annotations
    (cm_metadata('{"name":"x","annotations":[]}'), wrong_type("metadata.annotations")),
    (cm_metadata('{"name":"x","annotations":0}'), wrong_type("metadata.annotations")),
    (cm_metadata('{"name":"x","annotations":{"a":null}}'), wrong_type("metadata.annotations")),
    (cm_metadata('{"name":"x","annotations":{"a":1}}'), wrong_type("metadata.annotations")),
    (cm_metadata('{"name":"x","annotations":{"a":["1"]}}'), wrong_type("metadata.annotations")),
    (cm_metadata('{"name":"x","annotations":null}'), configmap("x")),
    (cm_metadata('{"name":"x","annotations":{}}'), configmap("x")),
    # of two faults the earlier member's goes first
    (cm_metadata('{"namespace":7}'), missing("metadata.name")),
    (cm_metadata('{"name":7,"namespace":7}'), wrong_type("metadata.name")),
    (cm_metadata('{"resourceVersion":7,"name":"x","namespace":7}'), wrong_type("metadata.namespace")),
    (cm_metadata('{"labels":[],"name":"x","resourceVersion":7}'), wrong_type("metadata.resourceVersion")),
    (cm_metadata('{"annotations":[],"labels":[],"name":"x"}'), wrong_type("metadata.labels")),
    # and each of them before another place, and that before the grammar
    (cm_metadata('{"annotations":[],"name":"x","namespace":"beta"}'), wrong_type("metadata.annotations")),
    (cm_metadata('{"name":"x","namespace":"beta"}'), OTHER_PLACE),
    (cm_metadata('{"name":"x","namespace":""}'), OTHER_PLACE),
    (cm_metadata('{"name":"x","namespace":"Acme"}'), OTHER_PLACE),
    (cm_metadata('{"name":"X","namespace":"beta"}'), OTHER_PLACE),
]


def bodies(t):
    t.part("bodies: JSON")
    t.tries(CONFIGMAPS, JSON_FAULTS)
    t.part("bodies: whole numbers")
    t.tries(CONFIGMAPS, NUMBER_FAULTS)
    t.part("bodies: members of every kind")
    t.tries(CONFIGMAPS, HEAD_FAULTS)


def config(resources, name="config"):
    return f'{{"apiVersion":"hnc.x-k8s.io/v1alpha2","kind":"HNCConfiguration","metadata":{{"name":"{name}"}},"spec":{resources}}}'


def config_kept(*entries):
    """A configuration of groups, modes and resources."""
    return thing("HNCConfiguration", "config", spec={"resources": [{"group": group, "mode": mode, "resource": resource} for group, mode, resource in entries]})


RESOURCES = wrong_type("spec.resources")
GROUP = wrong_type("spec.resources.group")
RESOURCE = wrong_type("spec.resources.resource")
NO_RESOURCE = missing("spec.resources.resource")
MODE = wrong_type("spec.resources.mode")

CONFIG_FAULTS = [
    ('{"apiVersion":"v1","kind":"HNCConfiguration","metadata":{"name":"config"}}', not_kind("HNCConfiguration")),
    ('{"apiVersion":"hnc.x-k8s.io/v1alpha1","kind":"HNCConfiguration","metadata":{"name":"config"}}', not_kind("HNCConfiguration")),
    ('{"apiVersion":"hnc.x-k8s.io/v1alpha2","kind":"HncConfiguration","metadata":{"name":"config"}}', not_kind("HNCConfiguration")),
    ('{"apiVersion":"hnc.x-k8s.io/v1alpha2","kind":"HNCConfiguration","metadata":{"name":"config"}}', config_kept()),
    (config("null"), config_kept()),
    (config("{}"), config_kept()),
    (config('{"resources":null}'), config_kept()),
    (config('{"resources":[]}'), config_kept()),
    (config("[]"), RESOURCES),
    (config('"x"'), RESOURCES),
    (config("0"), RESOURCES),
    (config("false"), RESOURCES),
    (config('{"resources":{}}'), RESOURCES),
    (config('{"resources":"secrets"}'), RESOURCES),
    (config('{"resources":["secrets"]}'), RESOURCES),
    (config('{"resources":[null]}'), RESOURCES),
    (config('{"resources":[{"resource":"a"},[]]}'), RESOURCES),
    (config('{"resources":[{"group":1,"resource":"a"},1]}'), RESOURCES),
    (config('{"resources":[{"group":1,"resource":"a"}]}'), GROUP),
    (config('{"resources":[{"group":[],"resource":"a"}]}'), GROUP),
    (config('{"resources":[{"group":null,"resource":"secrets"}]}'), config_kept(("", "Propagate", "secrets"))),
    (config('{"resources":[{"group":"","resource":""}]}'), broken("C2")),
    (config('{"resources":[{}]}'), NO_RESOURCE),
    (config('{"resources":[{"group":"g"}]}'), NO_RESOURCE),
    (config('{"resources":[{"resource":null}]}'), RESOURCE),
    (config('{"resources":[{"resource":7}]}'), RESOURCE),
    (config('{"resources":[{"resource":"a","mode":"propagate"}]}'), MODE),
    (config('{"resources":[{"resource":"a","mode":"AllowPropagate"}]}'), MODE),
    (config('{"resources":[{"resource":"a","mode":" Remove"}]}'), MODE),
    (config('{"resources":[{"resource":"a","mode":1}]}'), MODE),
    (config('{"resources":[{"resource":"a","mode":["Remove"]}]}'), MODE),
    (config('{"resources":[{"resource":"secrets","mode":null}]}'), config_kept(("", "Propagate", "secrets"))),
    (config('{"resources":[{"resource":"secrets","mode":""}]}'), config_kept(("", "Propagate", "secrets"))),
    (config('{"resources":[{"resource":"secrets","mode":"Propagate"},{"resource":"configmaps","mode":"Remove"},{"resource":"networkpolicies","mode":"Ignore","group":"networking.k8s.io"}]}'),
    config_kept(("", "Propagate", "secrets"), ("", "Remove", "configmaps"), ("networking.k8s.io", "Ignore", "networkpolicies"))),
    # all groups, then all resources, then all modes
    (config('{"resources":[{"group":1}]}'), GROUP),
    (config('{"resources":[{},{"group":1,"resource":"a"}]}'), GROUP),
    (config('{"resources":[{"mode":"x","resource":"a"},{"group":1,"resource":"a"}]}'), GROUP),
    (config('{"resources":[{"mode":"x"}]}'), NO_RESOURCE),
    (config('{"resources":[{"mode":"x","resource":"a"},{}]}'), NO_RESOURCE),
    (config('{"resources":[{},{"resource":1}]}'), NO_RESOURCE),
    (config('{"resources":[{"resource":1},{}]}'), RESOURCE),
    # the metadata before the members of the kind, and those before another place and the grammar
    ('{"apiVersion":"hnc.x-k8s.io/v1alpha2","kind":"HNCConfiguration","metadata":{"name":"config","annotations":[]},"spec":[]}', wrong_type("metadata.annotations")),
    ('{"apiVersion":"hnc.x-k8s.io/v1alpha2","kind":"HNCConfiguration","metadata":{"name":"config","namespace":"acme"},"spec":[]}', RESOURCES),
    ('{"apiVersion":"hnc.x-k8s.io/v1alpha2","kind":"HNCConfiguration","metadata":{"name":"config","namespace":"acme"},"spec":{"resources":[{"resource":"a","mode":"x"}]}}', MODE),
    ('{"apiVersion":"hnc.x-k8s.io/v1alpha2","kind":"HNCConfiguration","metadata":{"name":"config","namespace":"acme"}}', OTHER_PLACE),
    (config("[]", name="C"), RESOURCES),
]


def hierarchy(spec, metadata='{"name":"hierarchy"}'):
    return f'{{"apiVersion":"hnc.x-k8s.io/v1alpha2","kind":"HierarchyConfiguration","metadata":{metadata},"spec":{spec}}}'


def hierarchy_kept(**spec):
    return thing("HierarchyConfiguration", "hierarchy", "acme", spec=spec)


PARENT = wrong_type("spec.parent")
CASCADE = wrong_type("spec.allowCascadingDeletion")

HIERARCHY_FAULTS = [
    ('{"apiVersion":"hnc.x-k8s.io/v1","kind":"HierarchyConfiguration","metadata":{"name":"hierarchy"}}', not_kind("HierarchyConfiguration")),
    ('{"apiVersion":"hnc.x-k8s.io/v1alpha2","kind":"HierarchyConfiguration","metadata":{"name":"hierarchy"}}', hierarchy_kept()),
    (hierarchy("null"), hierarchy_kept()),
    (hierarchy("{}"), hierarchy_kept()),
    (hierarchy("[]"), PARENT),
    (hierarchy('"beta"'), PARENT),
    (hierarchy("true"), PARENT),
    (hierarchy('{"parent":1}'), PARENT),
    (hierarchy('{"parent":["beta"]}'), PARENT),
    (hierarchy('{"parent":null}'), hierarchy_kept()),
    (hierarchy('{"parent":""}'), hierarchy_kept()),
    (hierarchy('{"parent":"No Name"}'), broken("H1")),
    (hierarchy('{"allowCascadingDeletion":"true"}'), CASCADE),
    (hierarchy('{"allowCascadingDeletion":1}'), CASCADE),
    (hierarchy('{"allowCascadingDeletion":{}}'), CASCADE),
    (hierarchy('{"allowCascadingDeletion":null}'), hierarchy_kept()),
    (hierarchy('{"allowCascadingDeletion":false,"parent":"beta"}'), hierarchy_kept(parent="beta")),
    (hierarchy('{"allowCascadingDeletion":true}'), hierarchy_kept(allowCascadingDeletion=True)),
    (hierarchy('{"allowCascadingDeletion":1,"parent":1}'), PARENT),
    (hierarchy('{"parent":1}', '{"name":"hierarchy","annotations":1}'), wrong_type("metadata.annotations")),
    (hierarchy('{"allowCascadingDeletion":1}', '{"name":"hierarchy","namespace":"beta"}'), CASCADE),
    (hierarchy("{}", '{"name":"hierarchy","namespace":"beta"}'), OTHER_PLACE),
]

SECRET_FAULTS = [
    (thing("Secret", "s", type=1), wrong_type("type")),
    (thing("Secret", "s", type=["Opaque"]), wrong_type("type")),
    (thing("Secret", "s", type={}), wrong_type("type")),
    (thing("Secret", "s", type=None), thing("Secret", "s", "acme", type=None)),
    (thing("Secret", "s", type=""), thing("Secret", "s", "acme", type="")),
    (thing("Secret", "s"), thing("Secret", "s", "acme")),
    (thing("Secret", "s", annotations=[], type=1), wrong_type("metadata.annotations")),
    (thing("Secret", "s", "beta", type=1), wrong_type("type")),
    (thing("Secret", "S", "beta"), OTHER_PLACE),
    (thing("Secret", "S", type=1), wrong_type("type")),
    (thing("ConfigMap", "s", type=1), not_kind("Secret")),
]


def own_members(t):
    t.part("bodies: members of configurations")
    t.tries(CONFIGS, CONFIG_FAULTS)
    t.part("bodies: members of hierarchies")
    t.tries(HIERARCHIES, HIERARCHY_FAULTS)
    # a parent is any text
    t.creates(post(f"{HIERARCHIES}?admission=skip", hierarchy('{"parent":"No Name"}')), hierarchy_kept(parent="No Name"))
    t.removes(delete(f"{HIERARCHIES}/hierarchy"))
    t.part("bodies: types of Secrets")
    t.tries(SECRETS, SECRET_FAULTS)
    t.tries(CONFIGMAPS, [(cm('"spec":1,"type":5'), configmap("x", spec=1, type=5))])


def replacements(t):
    t.part("bodies: replacements")
    one = f"{CONFIGMAPS}/x"
    stored = t.creates(post(CONFIGMAPS, MINIMAL), configmap("x"))
    t.shows(put(one, cm_metadata("{}")), stored)
    t.shows(put(one, cm_metadata('{"name":null,"namespace":null}')), stored)
    t.shows(put(one, cm_metadata('{"name":"x","namespace":"acme","resourceVersion":null}')), stored)
    version = stored["metadata"]["resourceVersion"]
    for metadata, wanted in [
        ("null", wrong_type("metadata")),
        ('{"name":7}', wrong_type("metadata.name")),
        ('{"name":7,"namespace":7}', wrong_type("metadata.name")),
        ('{"resourceVersion":7}', wrong_type("metadata.resourceVersion")),
        ('{"resourceVersion":7,"name":"y"}', wrong_type("metadata.resourceVersion")),
        ('{"name":"y"}', OTHER_PLACE),
        ('{"name":""}', OTHER_PLACE),
        ('{"name":"X"}', OTHER_PLACE),
        ('{"namespace":"beta"}', OTHER_PLACE),
        ('{"namespace":"beta","labels":{"-":""}}', OTHER_PLACE),
        ('{"labels":{"-":""},"resourceVersion":"7"}', BAD_LABEL),
        ('{"resourceVersion":"7"}', has_version("configmaps", "x", version)),
        ('{"resourceVersion":"x"}', has_version("configmaps", "x", version)),
    ]:
        t.refuses(put(one, cm_metadata(metadata)), wanted)
    t.refuses(put(one, ""), NOT_JSON)
    t.refuses(put(one, '{"apiVersion":"v1","kind":"ConfigMap"}'), missing("metadata"))
    t.refuses(put(f"{CONFIGMAPS}/X", cm_metadata("{}")), BAD_NAME)
    t.refuses(put(f"{CONFIGMAPS}/X", cm_metadata('{"name":"x"}')), OTHER_PLACE)
    t.refuses(put("/api/v1/namespaces/ACME/configmaps/x", cm_metadata("{}")), BAD_NAME)
    t.refuses(put(f"{CONFIGMAPS}/y", cm_metadata('{"resourceVersion":"7"}')), not_found("configmaps", "y"))
    t.refuses(put("/api/v1/namespaces/none/configmaps/x", cm_metadata("{}")), not_found("configmaps", "x"))
    t.changes(put(one, cm_metadata('{"annotations":{"a":"1"}}')), configmap("x", annotations={"a": "1"}))
    t.changes(put(one, cm_metadata('{"annotations":{"a":"1"},"labels":{"a":"1"}}')), configmap("x", annotations={"a": "1"}, labels={"a": "1"}))
    t.changes(put(one, cm('"data":{"b":1,"a":[]}')), configmap("x", data={"a": [], "b": 1}))
    stored = t.changes(put(one, cm('"data":{"a":[],"b":2}')), configmap("x", data={"a": [], "b": 2}))
    t.shows(put(one, cm('"data" : {"b":2,"a":[]}')), stored)
    t.removes(delete(one))


# ---- names

LONG_NAME = "a" * 253

NAMESPACE_NAMES = [
    ("", False), ("a", True), ("7", True), ("a" * 63, True), ("a" * 64, False), ("a-b", True), ("a--b", True),
    ("0-9", True), ("-a", False), ("a-", False), ("-", False), ("A", False), ("aB", False),
    ("a.b", False), ("a_b", False), ("a b", False), ("a/b", False), ("é", False), ("a\n", False),
]

SUBDOMAIN_NAMES = [
    ("", False), ("a", True), ("0", True), ("a" * 63, True), ("a" * 64, True), (LONG_NAME, True),
    (LONG_NAME + "a", False), ("a.b", True), ("a.b-c.d", True), ("1.2", True), ("a.", False), (".a", False),
    ("a..b", False), (".", False), ("a-.b", False), ("a.-b", False), ("-a", False), ("a-", False), ("A", False),
    ("a.B", False), ("a_b", False), ("a/b", False), ("a:b", False), ("a b", False), ("é", False),
    ("a." * 126 + "a", True), ("a." * 126 + "aa", False),
]

ROLE_NAMES = [
    ("", False), ("a", True), ("A", True), ("!", True), ("~", True), ("_", True), ("-", True), ("system:a", True),
    ("a" * 253, True), ("a" * 254, False), (".", False), ("..", False), ("...", True), (".a", True),
    ("a/b", False), ("/", False), ("a%b", False), ("%", False), ("a b", False), (" ", False), ("\u007f", False),
    ("é", False), ("\u001f", False), ('"', True), ("\\", True),
]


def names(t):
    t.part("bodies: names")
    for name, fits in NAMESPACE_NAMES:
        t.tries(NAMESPACES, [(thing("Namespace", name), namespace(name) if fits else BAD_NAME)])
    for name, fits in SUBDOMAIN_NAMES:
        t.tries(CONFIGMAPS, [(thing("ConfigMap", name), configmap(name) if fits else BAD_NAME)])
    for name, fits in ROLE_NAMES:
        t.tries(ROLES, [(thing("Role", name), thing("Role", name, "acme") if fits else BAD_NAME)])
    t.tries(ROLES.replace("roles", "rolebindings"), [(thing("RoleBinding", "A:b"), thing("RoleBinding", "A:b", "acme")), (thing("RoleBinding", "a/b"), BAD_NAME)])
    t.tries(CONFIGS, [(thing("HNCConfiguration", "C"), BAD_NAME), (thing("HNCConfiguration", "c.d"), broken("C1"))])
    # of those that fit their grammar one alone is allowed
    t.tries(HIERARCHIES, [
        (thing("HierarchyConfiguration", "h_"), BAD_NAME),
        (thing("HierarchyConfiguration", LONG_NAME + "a"), BAD_NAME),
        (thing("HierarchyConfiguration", LONG_NAME), broken("H7")),
        (thing("HierarchyConfiguration", "hierarchy"), thing("HierarchyConfiguration", "hierarchy", "acme", spec={})),
    ])
    t.tries(SERVICES, [(thing("Service", "1.a"), thing("Service", "1.a", "acme")), (thing("Service", "Web"), BAD_NAME)])
    for ns in ("ACME", "a.b", "-a", "a" * 64, "a%2Fb", "%20"):
        t.refuses(post(f"/api/v1/namespaces/{ns}/configmaps", MINIMAL), BAD_NAME)
    t.refuses(post(f"/api/v1/namespaces/{'b' * 63}/configmaps", MINIMAL), not_found("namespaces", "b" * 63))
    # before labels and sizes, and before what is stored
    t.refuses(post("/api/v1/namespaces/none/configmaps", thing("ConfigMap", "X")), BAD_NAME)
    t.tries(NAMESPACES, [(thing("Namespace", "A", labels={"-": ""}), BAD_NAME)])
    t.tries(CONFIGMAPS, [(thing("ConfigMap", "X", annotations={"-": ""}), BAD_NAME), (thing("ConfigMap", "", labels={"-": ""}), BAD_NAME)])


# ---- labels and annotations

# Keys, whether labels may have them, and whether annotations may.
KEYS = [
    ("", False, False), ("a", True, True), ("A", True, True), ("0", True, True), ("a" * 63, True, True),
    ("a" * 64, False, False), ("a-b_c.d", True, True), ("-a", False, False), ("a-", False, False),
    ("_a", False, False), ("a_", False, False), (".a", False, False), ("a.", False, False), ("a b", False, False),
    ("é", False, False), ("/a", False, False), ("a/", False, False), ("a/b/c", False, False), ("a//b", False, False),
    ("a/b", True, True), ("a.b/C_d", True, True), ("A/b", False, True), ("a.B/c", False, True), ("a_b/c", False, False),
    ("-a/b", False, False), ("a-/b", False, False), ("a../b", False, False), ("a./b", False, False),
    (LONG_NAME + "/a", True, True), (LONG_NAME + "a/a", False, False), ("a/" + "b" * 63, True, True),
    ("a/" + "b" * 64, False, False), ("a/-b", False, False),
]

# Values of labels. An annotation's value is any text.
LABEL_VALUES = [
    ("", True), ("a", True), ("A.b_c-9", True), ("0", True), ("a" * 63, True), ("a" * 64, False), ("-", False),
    ("-a", False), ("a-", False), ("_a", False), ("a.", False), ("a/b", False), ("a b", False), (" ", False),
    ("é", False),
]


def labels(t):
    t.part("bodies: labels and annotations")
    for key, for_label, for_annotation in KEYS:
        t.tries(CONFIGMAPS, [
            (thing("ConfigMap", "x", labels={key: "v"}), configmap("x", labels={key: "v"}) if for_label else BAD_LABEL),
            (thing("ConfigMap", "x", annotations={key: "v"}), configmap("x", annotations={key: "v"}) if for_annotation else BAD_LABEL),
        ])
    for value, fits in LABEL_VALUES:
        t.tries(CONFIGMAPS, [
            (thing("ConfigMap", "x", labels={"a": value}), configmap("x", labels={"a": value}) if fits else BAD_LABEL),
            (thing("ConfigMap", "x", annotations={"a": value}), configmap("x", annotations={"a": value})),
        ])
    t.tries(CONFIGMAPS, [
        (thing("ConfigMap", "x", labels={"a": "b", "z": "-"}), BAD_LABEL),
        (thing("ConfigMap", "x", labels={"a": "b"}, annotations={"-": ""}), BAD_LABEL),
    ])


# Labels that don't count.
UNCOUNTED = {"acme.tree.hnc.x-k8s.io/depth": "0", "x.tree.hnc.x-k8s.io/depth": "1", "hnc.x-k8s.io/included-namespace": "true"}

# The label of a copy doesn't count, either, and is nobody's to give.
COPIED = {"hnc.x-k8s.io/inherited-from": "beta"}


def some_labels(count):
    return {f"k{number}": "" for number in range(count)}


def sizes(t):
    t.part("bodies: numbers of labels and sizes")
    t.tries(CONFIGMAPS, [
        (thing("ConfigMap", "x", labels=some_labels(256)), configmap("x", labels=some_labels(256))),
        (thing("ConfigMap", "x", labels=some_labels(257)), TOO_MANY_LABELS),
        (thing("ConfigMap", "x", labels={**some_labels(256), **UNCOUNTED}), configmap("x", labels={**some_labels(256), **UNCOUNTED})),
        (thing("ConfigMap", "x", labels={**some_labels(256), **UNCOUNTED, **COPIED}), broken("O1")),
        (thing("ConfigMap", "x", labels={**some_labels(257), **COPIED}), TOO_MANY_LABELS),
        (thing("ConfigMap", "x", labels={**some_labels(256), "tree.hnc.x-k8s.io/depth": "0"}), TOO_MANY_LABELS),
        (thing("ConfigMap", "x", labels={**some_labels(256), "hnc.x-k8s.io/managed-by": ""}), TOO_MANY_LABELS),
        (thing("ConfigMap", "x", labels={**some_labels(256), "-": ""}), BAD_LABEL),
        (thing("ConfigMap", "x", labels=some_labels(257), annotations={"-": ""}), BAD_LABEL),
    ])
    # `{"data":".."}` has 11 bytes beside the text, the label 2 and the annotation 6. `é` has two bytes, and a
    # quotation mark is written in two. Labels that don't count have none
    full = {"labels": {"a": "b", **UNCOUNTED}, "annotations": {"a": 'é"\n\n'}}
    t.tries(CONFIGMAPS, [
        (thing("ConfigMap", "x", data='"é' + "a" * 65513, **full), configmap("x", data='"é' + "a" * 65513, **full)),
        (thing("ConfigMap", "x", data='"é' + "a" * 65514, **full), TOO_LARGE),
        (thing("ConfigMap", "x", data='"é' + "a" * 65513, labels={**full["labels"], **COPIED}, annotations=full["annotations"]), broken("O1")),
        (thing("ConfigMap", "x", data='"é' + "a" * 65514, labels={**full["labels"], **COPIED}, annotations=full["annotations"]), TOO_LARGE),
        (thing("ConfigMap", "x", data="a" * 65526, labels=some_labels(257)), TOO_MANY_LABELS),
    ])
    # a namespace has 2 bytes beside its labels and annotations
    t.tries(NAMESPACES, [(thing("Namespace", "over", annotations={"a": "é" * 32766 + "aa"}), TOO_LARGE)])


# ---- targets

# All kinds: the prefix, the plural, the resource, and whether they lie in no namespace.
ALL_KINDS = [
    ("Namespace", "/api/v1", "namespaces", "namespaces", True),
    ("HNCConfiguration", "/apis/hnc.x-k8s.io/v1alpha2", "hncconfigurations", "hncconfigurations.hnc.x-k8s.io", True),
    ("HierarchyConfiguration", "/apis/hnc.x-k8s.io/v1alpha2", "hierarchyconfigurations", "hierarchyconfigurations.hnc.x-k8s.io", False),
    ("SubnamespaceAnchor", "/apis/hnc.x-k8s.io/v1alpha2", "subnamespaceanchors", "subnamespaceanchors.hnc.x-k8s.io", False),
    ("HierarchicalResourceQuota", "/apis/hnc.x-k8s.io/v1alpha2", "hierarchicalresourcequotas", "hierarchicalresourcequotas.hnc.x-k8s.io", False),
    ("Role", "/apis/rbac.authorization.k8s.io/v1", "roles", "roles.rbac.authorization.k8s.io", False),
    ("RoleBinding", "/apis/rbac.authorization.k8s.io/v1", "rolebindings", "rolebindings.rbac.authorization.k8s.io", False),
    ("ConfigMap", "/api/v1", "configmaps", "configmaps", False),
    ("Secret", "/api/v1", "secrets", "secrets", False),
    ("NetworkPolicy", "/apis/networking.k8s.io/v1", "networkpolicies", "networkpolicies.networking.k8s.io", False),
    ("LimitRange", "/api/v1", "limitranges", "limitranges", False),
    ("Pod", "/api/v1", "pods", "pods", False),
    ("Service", "/api/v1", "services", "services", False),
    ("PersistentVolumeClaim", "/api/v1", "persistentvolumeclaims", "persistentvolumeclaims", False),
]

OUTSIDE = [
    "/", "//", "/?watch=1", "/api/", "/api/v1/", "/API", "/api/v2", "/API/v1/pods", "/api/V1/pods", "/api/v2/pods",
    "/api/v1/pods/", "/api/v1//pods", "//api/v1/pods", "/api/v1/Pods", "/api/v1/pod", "/api/v1/namespace",
    "/api/v1/namespaces/", "/api/v1/namespaces//pods", "/api/v1/namespaces/n/pods/", "/api/v1/namespaces/n//a",
    "/api/v1/namespaces/n/pods/a/", "/api/v1/namespaces/n/pods/a/b", "/api/v1/namespaces/n/namespaces",
    "/api/v1/namespaces/n/namespaces/a", "/api/v1/namespace/n/pods", "/api/v1/Namespaces/n/pods", "/api/v1/pods/a/b",
    "/api%2Fv1/pods", "/api/v1/%70ods", "/api/v1/roles", "/api/v1/namespaces/n/roles/a", "/api/v1/events",
    "/apis/", "/apis/v1/pods", "/apis/hnc.x-k8s.io", "/apis/hnc.x-k8s.io/v1", "/apis/hnc.x-k8s.io/v1alpha2/", "/apis/apps/v1", "/apis/hnc.x-k8s.io/v1/hncconfigurations",
    "/apis/hnc.x-k8s.io/v1alpha2/roles", "/apis/hnc.x-k8s.io/v1alpha2/namespaces/n/hncconfigurations",
    "/apis/hnc.x-k8s.io/v1alpha2/namespaces", "/apis/hnc.x-k8s.io/v1alpha2/namespaces/n",
    "/apis/rbac.authorization.k8s.io/v1beta1/roles", "/apis/rbac.authorization.k8s.io/v1/configmaps",
    "/apis/rbac.authorization.k8s.io/v1/clusterroles", "/hnc", "/hnc/v1", "/hnc/v1/event", "/hnc/v1/events/",
    "/hnc/v1/events/a", "/hnc/v2/events?since=0", "/healthz", "/api/v1/pods#a", "/%61pi/v1/pods",
    "/version/", "/version/openshift", "/%76ersion", "/openapi", "/openapi/v1", "/openapi/v3/", "/openapi/v3/api", "/openapi/v3/apis/apps/v1",
]

# Segments of an object's path, and the name that they stand for.
SEGMENTS = [
    ("a%2Fb", "a/b"), ("a%2fb", "a/b"), ("%6eone", "none"), ("%6Eone", "none"), ("%", "%"), ("%4", "%4"),
    ("%zz", "%zz"), ("%%6e", "%n"), ("a+b", "a+b"), ("a%2Bb", "a+b"), ("a%20b", "a b"), ("%00", "\u0000"),
    ("%c3%a9", "é"), ("é", "é"), ("a#", "a#"),
    ("%22", '"'), ("%5C", "\\"), ("a&b=c", "a&b=c"), ("%3F", "?"), ("%2525", "%25"), (";", ";"), ("..", ".."),
    ("%F0%9F%98%80", "😀"), ("x" * 300, "x" * 300),
]

# Methods that a path doesn't take.
METHODS = [
    ("PUT", NAMESPACES), ("DELETE", NAMESPACES), ("POST", f"{NAMESPACES}/acme"), ("POST", "/api/v1/configmaps"),
    ("POST", "/api/v1/pods"), ("PUT", "/api/v1/configmaps"), ("DELETE", "/api/v1/configmaps"), ("PUT", CONFIGMAPS),
    ("DELETE", CONFIGMAPS), ("POST", f"{CONFIGMAPS}/x"), ("PUT", CONFIGS), ("DELETE", CONFIGS),
    ("POST", f"{CONFIGS}/c"), ("POST", "/apis/rbac.authorization.k8s.io/v1/roles"), ("POST", "/hnc/v1/events"),
    ("PUT", "/hnc/v1/events"), ("DELETE", "/hnc/v1/events"),
    ("POST", "/api"), ("PUT", "/apis"), ("DELETE", "/version"), ("POST", "/api/v1"), ("DELETE", "/apis/hnc.x-k8s.io/v1alpha2"),
    ("PUT", "/openapi/v2"), ("POST", "/openapi/v3"), ("DELETE", "/openapi/v3/api/v1"),
]

# What a list of Pods answers to a query: nothing, or the refusal.
QUERIES = [
    ("", None), ("limit=5&pretty", None), ("watch", None), ("watch=", None), ("watch=1", bad_query("watch")),
    ("watch=0", bad_query("watch")), ("watch=false", bad_query("watch")), ("watch=&watch=1", None),
    ("watch=1&watch=", bad_query("watch")),
    ("%77atch=1", bad_query("watch")), ("watch=%20", bad_query("watch")), ("watch=+", bad_query("watch")),
    ("watch=%ff", bad_query("watch")), ("Watch=1", None), ("watch+=1", None), ("a=b;watch=1", None), ("?watch=1", None),
    ("&&watch=1", bad_query("watch")), ("=1", None),
    ("fieldSelector=a%3Db", bad_query("fieldSelector")), ("fieldSelector=", None), ("dryRun=All", bad_query("dryRun")),
    ("dryRun", None), ("continue=x", bad_query("continue")), ("continue=", None), ("admission=skip", None),
    ("admission=sk%69p", None),
    ("admission=skip&admission=x", None), ("admission=x&admission=skip", bad_query("admission")),
    ("admission=", bad_query("admission")), ("admission", bad_query("admission")),
    ("admission=Skip", bad_query("admission")), ("admission=skip+", bad_query("admission")), ("since=x", None),
    ("labelSelector=", None), ("labelSelector", None), ("labelSelector=a", None), ("labelSelector=a%3Db", None),
    ("%6cabelSelector=+", None), ("labelSelector=&labelSelector=a", None), ("limit=1&labelSelector=a", None),
    ("labelSelector=,", bad_query("labelSelector")), ("labelSelector=,&labelSelector=a", bad_query("labelSelector")),
    ("labelSelector=,&labelSelector=", bad_query("labelSelector")), ("labelSelector=a&labelSelector=,", None),
    ("labelSelector=&labelSelector=,", None), ("labelSelector&labelSelector=,", None), ("LabelSelector=,", None),
    ("labelSelector+=,", None), ("x=labelSelector=,", None), ("label%53elector=%2C", bad_query("labelSelector")),
    # of two the earlier in their order goes first
    ("watch=1&admission=x", bad_query("admission")), ("fieldSelector=1&watch=1", bad_query("watch")),
    ("dryRun=1&fieldSelector=1", bad_query("fieldSelector")), ("continue=x&dryRun=1", bad_query("dryRun")),
    ("labelSelector=a&continue=x", bad_query("continue")), ("labelSelector=&admission=x", bad_query("admission")),
    ("labelSelector=,&admission=x", bad_query("labelSelector")), ("admission=x&labelSelector=,", bad_query("labelSelector")),
    ("watch=1&labelSelector=,", bad_query("labelSelector")), ("dryRun=1&labelSelector=,", bad_query("labelSelector")),
    ("continue=x&dryRun=1&fieldSelector=1&watch=1&admission=x&labelSelector=,", bad_query("labelSelector")),
    ("continue=x&dryRun=1&fieldSelector=1&watch=1&admission=x", bad_query("admission")),
]

# What the feed answers to a query: no events, or the refusal. The last version stands for `last`, with its first digit in hexadecimal for `coded`, and the next one for `over`.
FEED = [
    ("", bad_query("since")), ("?", bad_query("since")), ("?since", bad_query("since")),
    ("?since=", bad_query("since")), ("?since=01", bad_query("since")), ("?since=00", bad_query("since")), ("?since=+1", bad_query("since")),
    ("?since=%2B1", bad_query("since")), ("?since=-1", bad_query("since")), ("?since=1x", bad_query("since")), ("?since=1.0", bad_query("since")),
    ("?since=1%20", bad_query("since")), ("?since=12345678901234567890", bad_query("since")), ("?since=18446744073709551615", bad_query("since")),
    ("?since=x&since={last}", bad_query("since")), ("?Since={last}", bad_query("since")), ("?since={last}", None), ("?since={last}&since=x", None),
    # no state of the version was
    ("?since={over}", bad_query("since")), ("?since=1234567890123456789", bad_query("since")), ("?since=9223372036854775807", bad_query("since")),
    ("?since=9999999999999999999", bad_query("since")),
    ("?since={coded}", None), ("?%73ince={last}", None), ("?since={last}&admission=skip", None),
    ("?since={last}&labelSelector=a", None), ("?since={last}&labelSelector=,", None), ("?since={last}&watch=", None), ("?limit=1&since={last}", None),
    ("?since=x&labelSelector=,", bad_query("since")), ("?since=x&admission=no", bad_query("admission")),
    ("?since=x&watch=1", bad_query("since")), ("?since={last}&watch=1", bad_query("watch")), ("?since={over}&watch=1", bad_query("watch")),
    ("?since={last}&continue=1", bad_query("continue")), ("?since={last}&fieldSelector=a", bad_query("fieldSelector")), ("?since={last}&dryRun=All", bad_query("dryRun")),
    # one that is missing goes last
    ("?watch=1", bad_query("watch")), ("?continue=1", bad_query("continue")), ("?admission=no", bad_query("admission")),
]

# Lines with two faults.
ORDERS = [
    ("PUT /api/v1/namespaces//x", NO_PATH),
    ("POST /api/v1/pods/a?watch=1 {", NO_PATH),
    ("DELETE /api/v1/namespaces/n/roles/%ff", NO_PATH),
    ("POST /api/v1/namespaces/%ff {", NO_METHOD),
    ("DELETE /api/v1/namespaces?admission=x", NO_METHOD),
    ("POST /api/v1/pods {", NO_METHOD),
    ("PUT /api/v1/namespaces/n/pods {", NO_METHOD),
    ("GET /api/v1/namespaces/%ff?watch=1", BAD_PATH),
    ("GET /api/v1/namespaces/n/pod?labelSelector=,", NO_PATH),
    ("PUT /api/v1/pods?labelSelector=, {", NO_METHOD),
    ("GET /api/v1/namespaces/%ff/pods?labelSelector=,", BAD_PATH),
    ("POST /api/v1/namespaces/n/pods?labelSelector=, {", NOT_JSON),
    ("POST /api/v1/namespaces/n/configmaps?labelSelector=,&dryRun=All {", bad_query("dryRun")),
    ("DELETE /api/v1/namespaces/n?labelSelector=,", not_found("namespaces", "n")),
    ("POST /api/v1/namespaces/%ff/pods {", BAD_PATH),
    ("PUT /api/v1/namespaces/%ff/configmaps/a {", BAD_PATH),
    ("PUT /api/v1/namespaces/a/configmaps/%C3 {", BAD_PATH),
    ("DELETE /api/v1/namespaces/%ed%a0%80", BAD_PATH),
    ("DELETE /api/v1/namespaces/acme?dryRun=All", bad_query("dryRun")),
    ("POST /api/v1/namespaces/n/pods?dryRun=All {", bad_query("dryRun")),
    ("PUT /api/v1/namespaces/n/configmaps/a?admission=no {", bad_query("admission")),
    ("POST /api/v1/namespaces/n/pods {", NOT_JSON),
    ("PUT /api/v1/namespaces/n/persistentvolumeclaims/A {", NOT_JSON),
    ("POST /apis/hnc.x-k8s.io/v1alpha2/namespaces/N/subnamespaceanchors", NOT_JSON),
    ("PUT /apis/hnc.x-k8s.io/v1alpha2/namespaces/n/hierarchicalresourcequotas/a", NOT_JSON),
    ("DELETE /api/v1/namespaces/N", not_found("namespaces", "N")),
    ("POST /api/v1/namespaces/none/configmaps {", NOT_JSON),
]


def target_kinds(t):
    t.part("targets: kinds")
    for kind, prefix, plural, resource, in_cluster in ALL_KINDS:
        if in_cluster:
            t.refuses(get(f"{prefix}/{plural}/none"), not_found(resource, "none"))
            t.refuses(get(f"{prefix}/namespaces/n/{plural}"), NO_PATH)
            t.refuses(get(f"{prefix}/namespaces/n/{plural}/none"), NO_PATH)
        else:
            t.lists(get(f"{prefix}/{plural}"), kind, [])
            t.lists(get(f"{prefix}/namespaces/n/{plural}"), kind, [])
            t.refuses(get(f"{prefix}/namespaces/n/{plural}/none"), not_found(resource, "none"))
            t.refuses(delete(f"{prefix}/namespaces/n/{plural}/none"), not_found(resource, "none"))
            t.refuses(get(f"{prefix}/{plural}/none"), NO_PATH)
        t.refuses(get(f"/apis{prefix}/{plural}"), NO_PATH)


def outside(t):
    t.part("targets: paths that aren't served")
    for target in OUTSIDE:
        t.refuses(get(target), NO_PATH)


def segments(t):
    t.part("targets: segments")
    for segment, name in SEGMENTS:
        t.refuses(get(f"{NAMESPACES}/{segment}"), not_found("namespaces", name))
        t.refuses(delete(f"/api/v1/namespaces/{segment}/pods/{segment}"), not_found("pods", name))
        t.lists(get(f"/api/v1/namespaces/{segment}/pods"), "Pod", [])
    for segment in ("%ff", "%C3", "%c3%28", "a%80", "%ed%a0%80", "%c0%80"):
        t.refuses(get(f"{NAMESPACES}/{segment}"), BAD_PATH)
        t.refuses(get(f"{NAMESPACES}/{segment}/pods"), BAD_PATH)
        t.refuses(get(f"{NAMESPACES}/{segment}/pods/a"), BAD_PATH)
        t.refuses(get(f"{NAMESPACES}/n/pods/{segment}"), BAD_PATH)


def decoded_segments(t):
    t.part("targets: segments that name what is stored")
    stored = t.creates(post(f"{NAMESPACES}/%61c%6De/configmaps", MINIMAL), configmap("x"))
    t.shows(get(f"{NAMESPACES}/acm%65/configmaps/%78?limit=1"), stored)
    t.shows(put(f"{NAMESPACES}/acm%65/configmaps/%78", MINIMAL), stored)
    t.removes(delete(f"{NAMESPACES}/acm%65/configmaps/%78"))
    role = t.creates(post(ROLES, thing("Role", "a?b#c")), thing("Role", "a?b#c", "acme"))
    t.shows(get(f"{ROLES}/a%3Fb#c"), role)
    t.shows(get(f"{ROLES}/a%3fb%23c?x"), role)
    t.refuses(get(f"{ROLES}/a?b#c"), not_found("roles.rbac.authorization.k8s.io", "a"))
    t.removes(delete(f"{ROLES}/a%3Fb%23c"))


def methods(t):
    t.part("targets: methods")
    for method, target in METHODS:
        t.refuses(f"{method} {target}", NO_METHOD)


# The short names that clients take for a kind.
SHORT = {
    "Namespace": ["ns"], "SubnamespaceAnchor": ["subns"], "HierarchicalResourceQuota": ["hrq"], "ConfigMap": ["cm"], "NetworkPolicy": ["netpol"],
    "LimitRange": ["limits"], "Pod": ["po"], "Service": ["svc"], "PersistentVolumeClaim": ["pvc"],
}

# The groups behind the core group, each with its one version.
GROUPS = [("hnc.x-k8s.io", "v1alpha2"), ("rbac.authorization.k8s.io", "v1"), ("networking.k8s.io", "v1")]

VERSION = "v0.1.0"


def resource_list(prefix):
    """What is said of the kinds under a prefix."""
    resources = [
        {
            "kind": kind, "name": plural, "namespaced": not in_cluster, "shortNames": SHORT.get(kind, []), "singularName": "",
            "verbs": ["create", "delete", "get", "list", "update"],
        }
        for kind, under, plural, _, in_cluster in ALL_KINDS if under == prefix
    ]
    return {"apiVersion": "v1", "groupVersion": prefix.removeprefix("/apis/").removeprefix("/api/"), "kind": "APIResourceList", "resources": resources}


def schema(prefix, group, version):
    """What is said of the paths under a prefix."""
    paths = {}
    for kind, under, plural, _, in_cluster in ALL_KINDS:
        if under == prefix:
            told = {"group": group, "kind": kind, "version": version}
            parameters = [{"in": "query", "name": "fieldValidation"}]
            paths[f"{prefix}{'' if in_cluster else '/namespaces/{namespace}'}/{plural}/{{name}}"] = {"patch": {"parameters": parameters, "responses": {}, "x-kubernetes-group-version-kind": told}}
    return {"info": {"title": "hnc", "version": VERSION}, "openapi": "3.0.0", "paths": paths}


def group_entry(name, version):
    one = {"groupVersion": f"{name}/{version}", "version": version}
    return {"name": name, "preferredVersion": one, "versions": [one]}


def documents(t):
    t.part("targets: documents")
    places = [("/api/v1", "", "v1")] + [(f"/apis/{name}/{version}", name, version) for name, version in GROUPS]
    release = {"buildDate": "", "compiler": "rattle", "gitCommit": "", "gitTreeState": "", "gitVersion": VERSION, "goVersion": "", "major": "0", "minor": "1", "platform": ""}
    rows = {
        "/api": {"kind": "APIVersions", "serverAddressByClientCIDRs": [], "versions": ["v1"]},
        "/apis": {"apiVersion": "v1", "groups": [group_entry(*group) for group in GROUPS], "kind": "APIGroupList"},
        "/version": release,
        "/openapi/v2": {"info": {"title": "hnc", "version": VERSION}, "paths": {}, "swagger": "2.0"},
        "/openapi/v3": {"paths": {prefix[1:]: {"serverRelativeURL": f"/openapi/v3{prefix}"} for prefix, _, _ in places}},
    }
    for prefix, group, version in places:
        rows[prefix] = resource_list(prefix)
        rows[f"/openapi/v3{prefix}"] = schema(prefix, group, version)
    for target in (*rows, "/apis?timeout=32s", "/version?labelSelector=,"):
        # paths stand in the order of the kinds
        t.says(get(target), f"200 {json.dumps(rows[target.split('?')[0]], separators=(',', ':'))}")
    t.refuses(get("/api?watch=1"), bad_query("watch"))
    t.refuses(get("/version?fieldSelector=metadata.name=a"), bad_query("fieldSelector"))


# Field selectors, and the ConfigMaps of all namespaces that a list by them has.
FIELDS = [
    ("metadata.name=a", "acme/a beta/a"), ("metadata.name%3Da", "acme/a beta/a"), ("metadata.name=none", ""),
    ("metadata.namespace=acme", "acme/a acme/b"), ("metadata.namespace=beta", "beta/a"), ("metadata.namespace=none", ""),
    ("metadata.name=a,metadata.namespace=beta", "beta/a"), ("metadata.namespace=beta,metadata.name=a", "beta/a"),
    ("metadata.namespace%3Dacme%2Cmetadata.name%3Db", "acme/b"), ("metadata.name=b,metadata.namespace=beta", ""),
    ("metadata.name=a,", "acme/a beta/a"), ("metadata.name=%ff", ""), ("metadata.name=a+", ""), ("", "acme/a acme/b beta/a"),
]

NO_FIELDS = [
    "metadata.name", "metadata.name=", "metadata.name==a", "metadata.name!=a", "metadata.name=a=b", "metadata.name=a%5Cb", "metadata.name=,",
    ",metadata.name=a", "metadata.name=a,metadata.name=a", "metadata.name=a,b", "metadata.name=a,metadata.namespace=b,",
    "metadata.name=a,metadata.namespace=acme,metadata.name=a", "metadata.namespace=acme,metadata.namespace=acme",
    "Metadata.name=a", "+metadata.name=a", "metadata.uid=a", "status.phase=Running", "name=a", "=a", "=", ",", "a",
]


def fields(t):
    t.part("targets: field selectors")
    made = {}
    for place in ("acme/a", "acme/b", "beta/a"):
        ns, name = place.split("/")
        new = thing("ConfigMap", name, ns, labels={"of": ns})
        made[place] = t.creates(post(f"/api/v1/namespaces/{ns}/configmaps", new), new)
    everywhere = "/api/v1/configmaps"
    for selector, places in FIELDS:
        t.lists(get(f"{everywhere}?fieldSelector={selector}"), "ConfigMap", [made[place] for place in places.split()])
    for selector in NO_FIELDS:
        t.refuses(get(f"{everywhere}?fieldSelector={selector}"), bad_query("fieldSelector"))
    t.lists(get(f"{CONFIGMAPS}?fieldSelector=metadata.name=b&limit=500"), "ConfigMap", [made["acme/b"]])
    t.lists(get(f"{CONFIGMAPS}?fieldSelector=metadata.namespace=beta"), "ConfigMap", [])
    t.lists(get(f"{everywhere}?fieldSelector=metadata.name=a&labelSelector=of=beta"), "ConfigMap", [made["beta/a"]])
    t.lists(get(f"{everywhere}?fieldSelector=metadata.name=a&fieldSelector=x"), "ConfigMap", [made["acme/a"], made["beta/a"]])
    t.lists(get(f"{NAMESPACES}?fieldSelector=metadata.namespace=acme"), "Namespace", [])
    t.refuses(get(f"{CONFIGMAPS}/a?fieldSelector=metadata.name=a"), bad_query("fieldSelector"))
    t.refuses(delete(f"{CONFIGMAPS}/a?fieldSelector=metadata.name=a"), bad_query("fieldSelector"))
    t.refuses(get(f"{everywhere}?fieldSelector=metadata.name=a&labelSelector=,"), bad_query("labelSelector"))
    t.refuses(get(f"{everywhere}?fieldSelector=metadata.name=a&dryRun=All"), bad_query("dryRun"))
    for place in made:
        t.removes(delete(f"/api/v1/namespaces/{place.replace('/', '/configmaps/')}"))


def queries(t):
    t.part("targets: queries")
    for query, wanted in QUERIES:
        if wanted is None:
            t.lists(get(f"/api/v1/pods?{query}"), "Pod", [])
        else:
            t.refuses(get(f"/api/v1/pods?{query}"), wanted)
    t.refuses(get(f"{NAMESPACES}/none?labelSelector=a"), not_found("namespaces", "none"))
    t.refuses(get(f"{NAMESPACES}/none?labelSelector=,"), not_found("namespaces", "none"))
    t.refuses(get(f"{NAMESPACES}/none#?watch=1"), bad_query("watch"))
    t.refuses(delete(f"{SERVICES}/none?admission=skip"), not_found("services", "none"))
    t.refuses(delete(f"{SERVICES}/none?labelSelector=a"), not_found("services", "none"))
    t.refuses(delete(f"{SERVICES}/none?continue=a"), bad_query("continue"))
    stored = t.creates(post(f"{CONFIGMAPS}?admission=skip&watch=", MINIMAL), configmap("x"))
    t.shows(put(f"{CONFIGMAPS}/x?admission=skip&labelSelector=a", MINIMAL), stored)
    t.removes(delete(f"{CONFIGMAPS}/x?admission=skip"))


# ConfigMaps of two namespaces, with their labels.
LABELLED = [
    ("acme", "a", None),
    ("acme", "b", {"app": "web"}),
    ("acme", "c", {"app": "web", "tier": "front"}),
    ("acme", "d", {"app": "db", "tier": ""}),
    ("acme", "e", {"example.com/app": "web", "in": "notin"}),
    ("beta", "a", {"app": "web"}),
    ("beta", "b", {"tier": "front"}),
]

# Selectors as they are sent, and the ConfigMaps of acme that a list by them has.
SELECTORS = [
    # a key that is there, or isn't
    ("app", "b c d"), ("!app", "a e"), ("tier", "c d"), ("example.com/app", "e"), ("example.com%2Fapp", "e"),
    ("web", ""), ("!web", "a b c d e"), ("App", ""), ("example.com", ""), ("in", "e"), ("!in", "a b c d"),
    ("notin", ""), ("!notin", "a b c d e"), ("a" * 63, ""), (f"!{'a' * 63}", "a b c d e"), (f"{'a' * 64}.com/app", ""),
    # a value
    ("app=web", "b c"), ("app==web", "b c"), ("app%3Dweb", "b c"), ("app%3D%3dweb", "b c"), ("app!=web", "a d e"),
    ("app%21=web", "a d e"), ("app=", ""), ("app==", ""), ("tier=", "d"), ("tier==", "d"), ("tier!=", "a b c e"),
    ("app=Web", ""), ("app=we", ""), ("app=webs", ""), ("in=notin", "e"), ("in==in", ""), ("example.com/app=web", "e"),
    ("app=1.a_b-C", ""), (f"app={'a' * 63}", ""), (f"app!={'a' * 63}", "a b c d e"), ("%61pp=w%65b", "b c"),
    # a set of values
    ("app+in+(web)", "b c"), ("app%20in%20(db,web)", "b c d"), ("app+in+(web,web)", "b c"), ("app+in(web)", "b c"),
    ("app+notin+(web)", "a d e"), ("app+notin+(web,db)", "a e"), ("app+notin(db)", "a b c e"), ("tier+in+()", "d"),
    ("tier+in+(,)", "d"), ("tier+in+(front,)", "c d"), ("tier+in+(,front)", "c d"), ("tier+notin+()", "a b c e"),
    ("tier+notin+(front,)", "a b e"), ("app+in+(in,notin)", ""), ("in+in+(in,notin)", "e"), ("app+in+(Web,dB)", ""),
    ("notin+notin+(notin)", "a b c d e"), ("in+notin+(notin)", "a b c d"),
    # several requirements
    ("app=web,tier", "c"), ("app,!tier", "b"), ("app=web,app=db", ""), ("app!=web,app", "d"), ("!app,!in", "a"),
    ("app+in+(web,db),tier=front", "c"), ("tier=,app", "d"), ("app!=,app", "b c d"), ("app,app,app", "b c d"),
    ("app,!app", ""), ("tier=front,app+notin+(db),app==web,!in", "c"),
    # spaces
    ("+", "a b c d e"), ("++%20", "a b c d e"), ("+app+", "b c d"), ("+app+=+web+", "b c"), ("app+==web", "b c"),
    ("app+!=+web", "a d e"), ("+!+app+", "a e"), ("app++in++(+web+,+db+)+,+tier", "c d"), ("app+=+,+tier", ""),
    # many of them
    (",".join(f"!k{number}" for number in range(1000)), "a b c d e"),
    (f"app+in+({','.join(f'k{number}' for number in range(1000))},db)", "d"),
    (f"tier{',tier' * 1000}", "c d"),
]

# Texts that are no selectors, as they are sent.
NO_SELECTORS = [
    # a sign or a word that can't stand there, or an end too early
    ",", "+,+", ",,", "app,", ",app", "app,,tier", "app=web,", "app+in+(web),", "!", "+!+", "!!app", "!app=web", "!app,!",
    "!app+in+(web)", "app!", "app!tier", "app+tier", "app=web+db", "app+=+web+tier", "=", "==", "!=", "=web", "!=web",
    "==web", "app===web", "app=!web", "app!==web", "app!=!web", "app=web=db", "app=(web)", "app+in", "app+notin",
    "app+in+web", "app+in=web", "app+in,tier", "app+in+(", "app+in+(web", "app+in+(web,", "app+in+(web+db)",
    "app+in+((web))", "app+in+(web))", "app+in+(web)+tier", "app+in+(web)(db)", "app+in+(!web)", "app+in+(a=b)",
    "app+in+()+()", "app+In+(web)", "app+has+(web)", "app+exists", "in+(web)", "in+in", "(app)", "()", "(", ")",
    "app)", "app(web)", "!in+in+(a)", "app<5", "app>5", "app+<+5", "<", ">", "app+in+(<)", "app=<", "app=>",
    # no key of a label
    "-app", "app-", "_app", "/app", "example.com/", "a/b/c", "Example.com/app", "-a.com/app", "a@b", "a:b", "app%09", "%09",
    "app%2Bweb", "%22app%22", "%C3%A9", "%ff", "%00", "*", "!-app", "!/", "app,-tier", "-app=web", "app=web,tier-",
    "a" * 64, f"{'a' * 254}/app", "%26", "app%26tier",
    # no value of a label
    "app=-web", "app=web-", "app=a/b", "app=%22web%22", "app=a:b", "app=%C3%A9", "app=%ff", "app!=.", "app==-", "app=web%26",
    "app+in+(web,-)", "app+in+(-,web)", "app+notin+(a/b)", f"app={'a' * 64}", f"app+in+({'a' * 64})", "app=*",
]

# Queries with a selector beside other parameters, and the ConfigMaps of acme that a list by them has.
SELECTED = [
    ("labelSelector=app&labelSelector=tier", "b c d"), ("labelSelector=app&labelSelector=,", "b c d"),
    ("labelSelector=&labelSelector=app", "a b c d e"), ("labelSelector&labelSelector=app", "a b c d e"),
    ("labelSelector=+&labelSelector=app", "a b c d e"), ("LabelSelector=app", "a b c d e"),
    ("labelSelector+=app", "a b c d e"), ("label%53elector=app", "b c d"), ("limit=1&labelSelector=app&pretty", "b c d"),
    ("labelSelector=app&admission=skip", "b c d"), ("labelSelector=app=web&tier=front", "b c"),
    ("&&labelSelector=app&&", "b c d"), ("watch=&labelSelector=app&fieldSelector=", "b c d"),
]


def selectors(t):
    t.part("targets: label selectors")
    path = "/api/v1/namespaces/{}/configmaps"
    made = {}
    for ns, name, labels in LABELLED:
        new = thing("ConfigMap", name, ns, labels=labels)
        made[ns, name] = t.creates(post(path.format(ns), new), new)
    for selector, names in SELECTORS:
        t.lists(get(f"{CONFIGMAPS}?labelSelector={selector}"), "ConfigMap", [made["acme", name] for name in names.split()])
    for selector in NO_SELECTORS:
        t.refuses(get(f"{CONFIGMAPS}?labelSelector={selector}"), bad_query("labelSelector"))
    for query, names in SELECTED:
        t.lists(get(f"{CONFIGMAPS}?{query}"), "ConfigMap", [made["acme", name] for name in names.split()])
    everywhere = "/api/v1/configmaps"
    t.lists(get(f"{everywhere}?labelSelector=app"), "ConfigMap", [made["acme", name] for name in "bcd"] + [made["beta", "a"]])
    t.lists(get(f"{everywhere}?labelSelector=tier=front"), "ConfigMap", [made["acme", "c"], made["beta", "b"]])
    t.lists(get(f"{everywhere}?labelSelector=!app"), "ConfigMap", [made["acme", "a"], made["acme", "e"], made["beta", "b"]])
    t.lists(get(f"{everywhere}?labelSelector=none"), "ConfigMap", [])
    t.lists(get(f"{path.format('beta')}?labelSelector=!tier"), "ConfigMap", [made["beta", "a"]])
    t.lists(get(f"{path.format('none')}?labelSelector=!app"), "ConfigMap", [])
    t.lists(get(f"{SECRETS}?labelSelector=!app"), "Secret", [])
    t.refuses(get(f"{everywhere}?labelSelector=app,"), bad_query("labelSelector"))
    t.refuses(get(f"{path.format('none')}?labelSelector=app,"), bad_query("labelSelector"))
    # of other requests the parameter is ignored
    stored = t.creates(post(f"{CONFIGMAPS}?labelSelector=,", MINIMAL), configmap("x"))
    t.shows(get(f"{CONFIGMAPS}/x?labelSelector=,"), stored)
    t.shows(get(f"{CONFIGMAPS}/x?labelSelector=app"), stored)
    stored = t.changes(put(f"{CONFIGMAPS}/x?labelSelector=,", thing("ConfigMap", "x", labels={"app": "x"})), configmap("x", labels={"app": "x"}))
    t.lists(get(f"{CONFIGMAPS}?labelSelector=app+notin+(web,db),app"), "ConfigMap", [stored])
    t.refuses(get(f"{CONFIGMAPS}/x?labelSelector=,&watch=1"), bad_query("watch"))
    t.removes(delete(f"{CONFIGMAPS}/x?labelSelector=,"))
    t.lists(get(f"{CONFIGMAPS}?labelSelector=app+notin+(web,db),app"), "ConfigMap", [])
    for ns, name, _ in LABELLED:
        t.removes(delete(f"{path.format(ns)}/{name}?labelSelector=none"))
    # namespaces are listed by their labels too
    beta = t.changes(put(f"{NAMESPACES}/beta", thing("Namespace", "beta", labels={"chosen": "yes"})), namespace("beta", labels={"chosen": "yes"}))
    t.lists(get(f"{NAMESPACES}?labelSelector=chosen"), "Namespace", [beta])
    t.lists(get(f"{NAMESPACES}?labelSelector=chosen+in+(no,maybe)"), "Namespace", [])
    t.refuses(get(f"{NAMESPACES}?labelSelector=chosen<2"), bad_query("labelSelector"))
    t.changes(put(f"{NAMESPACES}/beta", thing("Namespace", "beta")), namespace("beta"))
    t.lists(get(f"{NAMESPACES}?labelSelector=chosen"), "Namespace", [])


def feed(t):
    t.part("targets: the feed of events")
    last = str(t.version)
    for query, wanted in FEED:
        line = get(EVENTS + query.format(last=last, coded=f"%3{last}", over=t.version + 1))
        if wanted:
            t.refuses(line, wanted)
        else:
            t.answers_with(line, 200, {"items": [], "kind": "ChangeList", "metadata": {"resourceVersion": last}})


def orders(t):
    t.part("targets: of two faults the earlier")
    for line, wanted in ORDERS:
        t.refuses(line, wanted)


# ---- the tree of namespaces

# As crates/hnc/args has it.
EXCLUDED = ("kube-system", "hnc-system")
SUBNAMESPACE_OF = "hnc.x-k8s.io/subnamespace-of"

DONE = "done"
# a PUT that changes nothing
SAME = "same"


class Grove:
    """Rows on HierarchyConfigurations named `hierarchy`. A row without a rule beside it is carried out."""

    def __init__(self, t):
        self.t = t
        self.tree = Tree(EXCLUDED)
        self.stored = {}

    def namespaces(self, *names):
        for name in names:
            self.t.creates(post(NAMESPACES, thing("Namespace", name)), namespace(name))
            self.tree.namespaces.add(name)

    def post(self, ns, parent, wanted=DONE, **options):
        self.write("POST", ns, parent, wanted, **options)

    def put(self, ns, parent, wanted=DONE, **options):
        self.write("PUT", ns, parent, wanted, **options)

    def write(self, method, ns, parent, wanted, cascade=False, skip=False, **metadata):
        old = self.stored.get(ns)
        assert (old is None) == (method == "POST")
        spec = {"allowCascadingDeletion": True} if cascade else {}
        if parent is not None:
            spec["parent"] = parent
        made = thing("HierarchyConfiguration", "hierarchy", ns, spec=spec, **metadata)
        line = f"{method} {self.target(method, ns, skip)} {text(made)}"
        if self.is_refused(line, method, ns, parent, wanted, skip):
            return
        changed = old is None or with_version(made, old["metadata"]["resourceVersion"]) != old
        assert changed == (wanted == DONE), line
        if changed:
            writes = self.t.creates if method == "POST" else self.t.changes
            self.stored[ns] = writes(line, made)
            self.tree.parents[ns] = parent
        else:
            self.t.shows(line, old)

    def delete(self, ns, wanted=DONE, skip=False):
        line = delete(self.target("DELETE", ns, skip))
        if not self.is_refused(line, "DELETE", ns, None, wanted, skip):
            self.t.removes(line)
            del self.stored[ns], self.tree.parents[ns]

    def target(self, method, ns, skip):
        name = "" if method == "POST" else "/hierarchy"
        return HIERARCHIES_IN.format(ns) + name + ("?admission=skip" if skip else "")

    def is_refused(self, line, method, ns, parent, wanted, skip):
        """Gives the row of a refusal. The rule that is written in it is the one that is found, or none is."""
        found = self.tree.broken(method, ns, "hierarchy", parent, skip)
        assert found == (wanted if wanted in RULES else None), (line, wanted, found)
        if wanted in RULES:
            self.t.refuses(line, broken(wanted))
        return wanted in RULES

    def shows(self, ns, parent):
        """What is there of a namespace's HierarchyConfiguration, and which parent it names."""
        assert self.stored[ns]["spec"].get("parent") == parent
        self.t.shows(get(self.target("GET", ns, False)), self.stored[ns])

    def lacks(self, ns):
        assert ns not in self.stored
        self.t.refuses(get(self.target("GET", ns, False)), not_found(HIERARCHY, "hierarchy"))

    def lists(self, *names):
        """All HierarchyConfigurations that are there, by their namespaces."""
        assert sorted(self.stored) == list(names)
        self.t.lists(get(ALL_HIERARCHIES), "HierarchyConfiguration", [self.stored[ns] for ns in names])

    def clear(self):
        for ns in sorted(self.stored):
            self.delete(ns, skip=True)


def tree_building(t, g):
    t.part("tree: building and moving")
    g.namespaces("root", "left", "right", "leaf", "twig")
    g.post("left", "root")
    g.post("right", "root")
    g.post("leaf", "left")
    g.post("twig", "leaf")
    g.shows("leaf", "left")
    g.lists("leaf", "left", "right", "twig")
    # a leaf, and a subtree with it
    g.put("twig", "left")
    g.put("twig", "left", SAME)
    g.put("twig", "leaf", cascade=True)
    g.put("twig", "leaf", SAME, cascade=True)
    g.put("leaf", "right")
    g.put("left", "twig")
    g.shows("left", "twig")
    # now left is below twig, leaf, right and root
    for ns in ("left", "twig", "leaf", "right"):
        g.put("right", ns, "H2")
    g.post("root", "left", "H2")
    g.post("root", "root", "H2")
    g.post("root", None)
    g.put("root", "left", "H2")
    g.put("root", "root", "H2")
    g.put("leaf", "twig", "H2")
    g.put("leaf", "left", "H2")
    g.put("leaf", "leaf", "H2")
    g.shows("leaf", "right")


def tree_roots(t, g):
    t.part("tree: roots")
    # up, and down again by the other end
    g.put("left", "root")
    g.put("right", "left")
    g.put("left", "leaf", "H2")
    g.put("right", "root")
    # without a parent, and back
    g.put("leaf", None)
    g.put("leaf", None, SAME)
    g.put("root", "twig")
    g.put("leaf", "right", "H2")
    g.put("leaf", "root", "H2")
    g.put("root", None)
    g.put("leaf", "right")
    # a DELETE makes a root
    g.delete("leaf")
    g.lacks("leaf")
    g.post("leaf", "twig", "H2")
    g.put("right", "twig")
    g.post("leaf", "right", "H2")
    g.post("leaf", "left")
    g.delete("right")
    g.delete("root")
    g.post("root", "right")
    g.post("right", "twig", "H2")
    g.lists("leaf", "left", "root", "twig")
    # the annotation counts on namespaces alone
    g.put("left", None, annotations={SUBNAMESPACE_OF: "root"})
    g.put("root", "left")
    g.put("left", "root", "H2", annotations={SUBNAMESPACE_OF: "right"})
    g.clear()


def tree_places(t, g):
    t.part("tree: place and version before the rules")
    g.namespaces("place", "place-2")
    here = HIERARCHIES_IN.format("place")
    said = thing("HierarchyConfiguration", "hierarchy", spec={"parent": "none"})
    t.refuses(put(f"{here}/hierarchy", said), not_found(HIERARCHY, "hierarchy"))
    t.refuses(post(HIERARCHIES_IN.format("none"), said), not_found("namespaces", "none"))
    t.refuses(post(HIERARCHIES_IN.format("kube-system"), said), not_found("namespaces", "kube-system"))
    t.refuses(post(HIERARCHIES_IN.format("none"), thing("HierarchyConfiguration", "h")), not_found("namespaces", "none"))
    for name in ("hierarchy", "h"):
        t.refuses(put(f"{HIERARCHIES_IN.format('kube-system')}/{name}", thing("HierarchyConfiguration", name)), not_found(HIERARCHY, name))
        t.refuses(delete(f"{HIERARCHIES_IN.format('kube-system')}/{name}"), not_found(HIERARCHY, name))
    g.post("place", "none", "H1")
    g.post("place", "place-2")
    t.refuses(post(here, said), exists(HIERARCHY, "hierarchy"))
    t.refuses(post(f"{here}?admission=skip", said), exists(HIERARCHY, "hierarchy"))
    version = t.version
    t.refuses(put(f"{here}/hierarchy", with_version(said, version - 1)), has_version(HIERARCHY, "hierarchy", version))
    t.refuses(put(f"{here}/hierarchy", with_version(said, version)), broken("H1"))
    t.refuses(put(f"{here}/hierarchy", with_version(said, "")), broken("H1"))
    # a refusal takes no version
    g.shows("place", "place-2")
    g.lists("place")
    g.put("place", None)
    g.clear()


def tree_names(t, g):
    t.part("tree: names of HierarchyConfigurations")
    g.namespaces("named")
    here = HIERARCHIES_IN.format("named")
    for name in ("h", "hierarch", "hierarchy2", "hierarchys", "hierarchy.named", "named", "config"):
        t.refuses(post(here, thing("HierarchyConfiguration", name)), broken("H7"))
    # skipping doesn't pass over it
    t.refuses(post(f"{here}?admission=skip", thing("HierarchyConfiguration", "hierarch")), broken("H7"))
    # before the rules on the tree, and after the faults of a body
    for parent in ("none", "named"):
        t.refuses(post(here, thing("HierarchyConfiguration", "h", spec={"parent": parent})), broken("H7"))
    t.refuses(post(here, thing("HierarchyConfiguration", "Hierarchy")), BAD_NAME)
    t.refuses(post(here, thing("HierarchyConfiguration", "h", "acme")), OTHER_PLACE)
    t.refuses(post(here, thing("HierarchyConfiguration", "h", spec={"parent": 1})), PARENT)
    t.refuses(get(f"{here}/h"), not_found(HIERARCHY, "h"))
    t.refuses(put(f"{here}/h", thing("HierarchyConfiguration", "h")), not_found(HIERARCHY, "h"))
    t.refuses(delete(f"{here}/h"), not_found(HIERARCHY, "h"))
    # the rule is on this kind alone
    t.tries(CONFIGMAPS, [(thing("ConfigMap", "hierarchy2"), configmap("hierarchy2")), (thing("ConfigMap", "hierarchy"), configmap("hierarchy"))])
    g.lists()


def tree_annotations(t, g):
    t.part("tree: the annotation of subnamespaces")
    annotated = {SUBNAMESPACE_OF: "acme"}
    for value in ("acme", "noted", "none", "kube-system", "", "No Name"):
        t.refuses(post(NAMESPACES, thing("Namespace", "noted", annotations={SUBNAMESPACE_OF: value})), broken("N3"))
    t.refuses(post(NAMESPACES, thing("Namespace", "noted", annotations={"a": "1", **annotated}, labels={"b": "2"})), broken("N3"))
    t.refuses(post(f"{NAMESPACES}?admission=skip", thing("Namespace", "noted", annotations=annotated)), broken("N3"))
    # faults of a body and the place go first
    t.refuses(post(NAMESPACES, thing("Namespace", "Noted", annotations=annotated)), BAD_NAME)
    t.refuses(post(NAMESPACES, thing("Namespace", "noted", annotations={SUBNAMESPACE_OF: 1})), wrong_type("metadata.annotations"))
    t.refuses(post(NAMESPACES, thing("Namespace", "acme", annotations=annotated)), exists("namespaces", "acme"))
    t.refuses(put(f"{NAMESPACES}/noted", thing("Namespace", "noted", annotations=annotated)), not_found("namespaces", "noted"))
    t.refuses(get(f"{NAMESPACES}/noted"), not_found("namespaces", "noted"))
    stored = t.creates(post(NAMESPACES, thing("Namespace", "noted")), namespace("noted"))
    one = f"{NAMESPACES}/noted"
    for value in ("acme", "noted", ""):
        t.refuses(put(one, thing("Namespace", "noted", annotations={SUBNAMESPACE_OF: value})), broken("N3"))
    t.refuses(put(f"{one}?admission=skip", thing("Namespace", "noted", annotations=annotated)), broken("N3"))
    t.refuses(put(one, with_version(thing("Namespace", "noted", annotations=annotated), 1)), has_version("namespaces", "noted", t.version))
    t.refuses(put(one, with_version(thing("Namespace", "noted", annotations=annotated), t.version)), broken("N3"))
    t.shows(get(one), stored)
    # other keys, other metadata and other kinds
    for metadata in (
        {"annotations": {"hnc.x-k8s.io/Subnamespace-of": "acme"}},
        {"annotations": {"HNC.x-k8s.io/subnamespace-of": "acme"}},
        {"annotations": {"hnc.x-k8s.io/subnamespace-of2": "acme", "subnamespace-of": "acme"}},
        {"labels": {SUBNAMESPACE_OF: "acme"}},
    ):
        t.changes(put(one, thing("Namespace", "noted", **metadata)), namespace("noted", **metadata))
    t.creates(post(NAMESPACES, thing("Namespace", "noted-2", labels=annotated)), namespace("noted-2", labels=annotated))
    t.tries(CONFIGMAPS, [(thing("ConfigMap", "x", annotations=annotated), configmap("x", annotations=annotated))])


def tree_missing(t, g):
    t.part("tree: parents that aren't there")
    g.namespaces("orphan", "below", "under", "beside", "other")
    g.post("orphan", "gone", "H1")
    g.lacks("orphan")
    g.post("orphan", "gone", skip=True)
    g.shows("orphan", "gone")
    # the parent that is named already is no new one
    g.put("orphan", "gone", SAME)
    g.put("orphan", "gone", cascade=True)
    g.put("orphan", "gone", labels={"a": "b"})
    g.put("orphan", "gone-2", "H1")
    g.put("orphan", "orphan", "H2")
    # a halted parent, and one below a halted one
    g.post("below", "orphan", "H4")
    g.post("below", "orphan", skip=True)
    g.post("under", "below", "H4")
    g.post("under", "below", skip=True)
    g.post("other", "under", "H4")
    g.post("other", "beside")
    g.put("other", "below", "H4")
    g.put("other", "orphan", "H4")
    g.shows("other", "beside")
    # below the halted one no parent changes
    for ns, parent, higher in (("below", "orphan", "beside"), ("under", "below", "orphan")):
        g.put(ns, parent, cascade=True)
        g.put(ns, parent, SAME, cascade=True)
        g.put(ns, None, "H4")
        g.put(ns, higher, "H4")
        g.put(ns, "other", "H4")
        g.delete(ns, "H4")
        g.put(ns, "gone", "H1")
        g.put(ns, ns, "H2")
        g.shows(ns, parent)
    g.put("below", "under", "H2")
    g.delete("under", skip=True)
    g.put("below", "beside", skip=True)
    g.put("below", "orphan", "H4")
    g.put("below", "orphan", skip=True)


def tree_found(t, g):
    t.part("tree: parents that are there again")
    # the halted one itself may go
    g.put("orphan", "below", "H2")
    g.put("orphan", "other")
    g.put("below", "orphan", SAME)
    g.put("below", "other")
    g.put("below", "orphan", cascade=True)
    g.put("orphan", "gone", skip=True)
    g.put("orphan", None)
    g.put("below", "beside")
    g.put("below", "orphan")
    g.put("orphan", "gone", skip=True)
    g.delete("orphan")
    g.lacks("orphan")
    g.put("below", "beside")
    g.put("below", "orphan")
    # and it is well once its parent is there
    g.post("orphan", "gone", skip=True)
    g.put("below", None, "H4")
    g.namespaces("gone")
    g.put("below", None)
    g.put("below", "orphan")
    g.post("gone", "below", "H2")
    g.post("gone", "orphan", "H2")
    g.post("gone", "other")
    g.clear()


def tree_cycles(t, g):
    t.part("tree: cycles")
    g.namespaces("ring-1", "ring-2", "ring-3", "tail-1", "tail-2", "out", "far")
    g.post("ring-1", "ring-2")
    g.post("ring-2", "ring-3")
    g.post("ring-3", "ring-1", "H2")
    g.post("ring-3", "ring-1", skip=True)
    g.post("far", "out")
    # below the ring
    g.post("tail-1", "ring-1", "H4")
    g.post("tail-1", "ring-1", skip=True)
    g.post("tail-2", "tail-1", "H4")
    g.post("tail-2", "tail-1", skip=True)
    g.lists("far", "ring-1", "ring-2", "ring-3", "tail-1", "tail-2")
    for ns, parent in (("tail-1", "ring-1"), ("tail-2", "tail-1")):
        g.put(ns, parent, cascade=True)
        g.put(ns, None, "H4")
        g.put(ns, "out", "H4")
        g.put(ns, "ring-2", "H4")
        g.put(ns, "none", "H1")
        g.put(ns, "tail-2", "H2")
        g.delete(ns, "H4")
        g.shows(ns, parent)
    # into the ring, and below it
    for parent in ("ring-1", "ring-3", "tail-1", "tail-2"):
        g.put("far", parent, "H4")
        g.post("out", parent, "H4")
    # in the ring
    g.put("ring-1", "ring-2", SAME)
    g.put("ring-1", "ring-2", cascade=True)
    for parent in ("ring-1", "ring-3", "tail-1", "tail-2"):
        g.put("ring-1", parent, "H2")
    g.put("ring-2", "ring-1", "H2")
    g.put("ring-2", "none", "H1")
    g.shows("ring-2", "ring-3")


def tree_out_of_cycles(t, g):
    t.part("tree: out of cycles")
    # each member of the ring may go, and then nothing is halted
    g.put("ring-1", "far")
    g.put("ring-1", "ring-3", "H2")
    g.put("tail-1", "ring-3")
    g.put("tail-2", "ring-2")
    g.post("out", "tail-2", "H2")
    g.put("ring-1", "ring-2", "H2")
    g.put("ring-1", "ring-2", skip=True)
    g.put("tail-1", None, "H4")
    g.put("ring-2", None)
    g.put("tail-1", None)
    g.put("ring-2", "ring-3", "H2")
    g.put("ring-2", "ring-3", skip=True)
    g.delete("ring-3")
    g.put("tail-1", "ring-3")
    g.post("ring-3", "tail-1", "H2")
    g.post("ring-3", "ring-1", "H2")
    g.post("ring-3", "far")
    # a ring of four, that one of them leaves
    g.put("far", "tail-2", "H2")
    g.put("far", "tail-2", skip=True)
    g.put("tail-1", "out", "H4")
    g.put("ring-2", "tail-1", "H2")
    g.put("tail-2", "out")
    g.put("tail-1", "out")
    g.clear()


def tree_small_rings(t, g):
    t.part("tree: rings of one and of two")
    g.namespaces("own", "kid", "pair-1", "pair-2", "free")
    g.post("own", "own", "H2")
    g.post("own", "own", skip=True)
    g.shows("own", "own")
    g.put("own", "own", SAME)
    g.put("own", "own", cascade=True)
    g.post("kid", "own", "H4")
    g.post("kid", "own", skip=True)
    g.put("kid", None, "H4")
    g.delete("kid", "H4")
    g.put("kid", "kid", "H2")
    g.put("own", "kid", "H2")
    g.put("own", "free")
    g.put("kid", "free")
    g.put("kid", "own")
    g.put("own", "own", "H2")
    g.put("own", "own", skip=True)
    g.put("kid", "free", "H4")
    g.put("own", None)
    g.put("kid", "free")
    g.put("own", "own", skip=True)
    g.put("kid", "own", "H4")
    g.delete("own")
    g.put("kid", "own")
    g.post("own", "kid", "H2")
    g.post("own", "kid", skip=True)
    # from one ring to another
    g.post("pair-1", "pair-2")
    g.post("pair-2", "pair-1", "H2")
    g.post("pair-2", "pair-1", skip=True)
    g.put("pair-1", "own", "H4")
    g.put("kid", "pair-2", "H4")
    g.put("kid", "pair-2", skip=True)
    g.put("own", "free", "H4")
    g.put("kid", "free", "H4")
    g.put("kid", "free", skip=True)
    g.put("pair-1", "pair-1", "H2")
    g.put("pair-1", "own")
    g.delete("pair-2")
    g.put("pair-1", "pair-2")
    g.lists("kid", "own", "pair-1")
    g.clear()


def tree_excluded(t, g):
    t.part("tree: excluded namespaces")
    g.namespaces("inner", "low", "open", "kube-systems", "kube")
    g.post("inner", "kube-system", "H1")
    g.post("inner", "kube-system", skip=True)
    g.put("inner", None)
    g.namespaces("kube-system")
    g.put("inner", "kube-system", "H6")
    g.put("inner", "hnc-system", "H1")
    # nothing is written in an excluded namespace
    g.post("kube-system", None, "H6")
    t.refuses(post(HIERARCHIES_IN.format("kube-system"), thing("HierarchyConfiguration", "h")), broken("H7"))
    g.post("kube-system", "open", "H6")
    g.post("kube-system", "none", "H1")
    g.post("kube-system", "hnc-system", "H1")
    g.post("kube-system", "kube-system", "H2")
    g.lacks("kube-system")
    g.post("kube-system", "open", skip=True)
    g.put("kube-system", "open", "H6")
    g.put("kube-system", "open", SAME, skip=True)
    g.put("kube-system", "open", "H6", cascade=True)
    g.put("kube-system", "open", cascade=True, skip=True)
    g.put("kube-system", None, "H6")
    g.put("kube-system", "inner", "H6")
    g.put("kube-system", "none", "H1")
    g.post("open", "kube-system", "H2")
    g.shows("kube-system", "open")
    # and a DELETE writes nothing
    g.delete("kube-system")
    g.lacks("kube-system")


def tree_excluded_parents(t, g):
    t.part("tree: parents that are excluded")
    g.put("inner", "kube-system", skip=True)
    g.shows("inner", "kube-system")
    g.put("inner", "kube-system", SAME)
    g.put("inner", "kube-system", cascade=True)
    g.post("kube-system", "inner", "H2")
    g.post("low", "inner", "H4")
    g.post("low", "inner", skip=True)
    g.put("low", "inner", cascade=True)
    g.put("low", None, "H4")
    g.put("low", "open", "H4")
    g.put("low", "kube-system", "H4")
    g.put("low", "none", "H1")
    g.delete("low", "H4")
    g.put("inner", "open")
    g.put("low", "open")
    g.put("inner", "kube-system", "H6")
    g.put("low", "kube-system", "H6")
    g.put("low", "inner")
    g.put("inner", "kube-system", skip=True)
    g.put("inner", None)
    g.put("inner", "kube-system", skip=True)
    g.delete("inner")
    g.post("inner", "kube-system", "H6")
    # the excluded namespace below a halted one
    g.post("inner", "inner", skip=True)
    g.post("kube-system", "low", "H4")
    g.post("kube-system", "low", skip=True)
    g.put("kube-system", "low", "H6", cascade=True)
    g.put("kube-system", None, "H4")
    g.put("kube-system", "open", "H4")
    g.delete("kube-system", "H4")
    g.put("inner", None)
    g.put("kube-system", None, "H6")
    g.delete("kube-system")


def tree_excluded_names(t, g):
    t.part("tree: names that are excluded")
    # one that comes to be there later
    g.put("inner", "hnc-system", "H1")
    g.put("inner", "hnc-system", skip=True)
    g.namespaces("hnc-system")
    g.put("inner", "hnc-system", cascade=True)
    g.put("low", None, "H4")
    g.put("inner", "kube-system", "H6")
    g.put("inner", "open")
    g.put("inner", "hnc-system", "H6")
    # names that are almost excluded
    g.post("kube", "open")
    g.post("kube-systems", "kube")
    g.post("open", "kube-systems", "H2")
    g.put("inner", "kube-systems")
    # only HierarchyConfigurations are meant
    role = thing("Role", "reader")
    path = "/apis/rbac.authorization.k8s.io/v1/namespaces/kube-system/roles"
    t.tries(path, [(role, thing("Role", "reader", "kube-system"))])
    t.changes(put(f"{NAMESPACES}/kube-system", thing("Namespace", "kube-system", labels={"a": "b"})), namespace("kube-system", labels={"a": "b"}))
    g.clear()


def rung(number):
    """The namespaces of a line, each the parent of the next one."""
    return f"n{number}"


def tree_depth(t, g):
    t.part("tree: depth")
    g.namespaces(*(rung(number) for number in range(66)), "step")
    for number in range(1, 65):
        g.post(rung(number), rung(number - 1))
    g.post("n65", "n64", "H8")
    g.lacks("n65")
    g.post("n65", "n63")
    g.put("n65", "n64", "H8")
    g.shows("n65", "n63")
    g.delete("n65")
    # top and what is below it have that height: by way of step it would come to reach a depth of 65, and then of 64
    g.post("step", None)
    for height in (0, 2, 31, 61, 63):
        top, above = rung(64 - height), rung(63 - height)
        g.put("step", above)
        g.put(top, "step", "H8")
        g.put("step", rung(62 - height) if height < 63 else None)
        g.put(top, "step")
        g.put(top, above)
    g.post("n0", "step", "H8")
    # both halves of the line, one below the other and the other way round
    g.put("n32", None)
    g.post("n0", "n64")
    g.put("n32", "n31", "H2")
    g.put("n32", "step", "H8")
    g.put("n0", None)
    g.put("n32", "n31")
    g.lists(*sorted(rung(number) for number in range(65)), "step")


def tree_too_deep(t, g):
    t.part("tree: namespaces that are deeper")
    g.post("n65", "n64", skip=True)
    # whoever keeps its parent, or comes to reach 64, may be written
    g.put("n65", "n64", cascade=True)
    g.put("n63", "n62", cascade=True)
    g.put("n60", "n58")
    g.put("n60", "n59", "H8")
    g.put("n60", "n59", skip=True)
    # a move upwards may not be enough, and a DELETE always is
    g.put("n0", "step", "H8")
    g.put("n0", "step", skip=True)
    g.put("n0", None, "H8")
    g.put("n0", "far", "H8")
    g.put("n1", "step", "H8")
    g.put("n2", "step")
    g.put("n2", "n1", "H8")
    g.put("n2", "n1", skip=True)
    # each of the rules before
    g.put("n0", "none", "H1")
    g.put("n0", "n65", "H2")
    g.put("n0", "kube-system", "H6")
    g.put("n0", "step", SAME)
    g.delete("n0")
    g.lacks("n0")
    g.put("n65", "n63")
    g.post("own", "own", skip=True)
    g.post("n0", "own", "H4")
    g.post("n0", "kube-system", "H6")
    g.post("n0", "far", "H8")
    # a parent that comes later lowers all below it
    g.post("n0", "later", "H1")
    g.post("n0", "later", skip=True)
    g.put("n64", "n62", "H4")
    g.namespaces("later")
    g.put("n65", "n63", cascade=True)
    g.put("n65", "n64", "H8")
    g.put("n65", "n62")
    g.put("n64", "n65", "H8")
    g.put("n64", "n62")
    g.put("n64", "n63", "H8")
    g.put("n0", None)
    g.put("n64", "n63")
    g.shows("n64", "n63")
    g.put("n0", "later", "H8")
    g.put("n64", "n62")
    g.put("n0", "later")
    g.post("later", "step", "H8")


TREE_PARTS = [
    tree_building,
    tree_roots,
    tree_places,
    tree_names,
    tree_annotations,
    tree_missing,
    tree_found,
    tree_cycles,
    tree_out_of_cycles,
    tree_small_rings,
    tree_excluded,
    tree_excluded_parents,
    tree_excluded_names,
    tree_depth,
    tree_too_deep,
]


def trees(t):
    g = Grove(t)
    for part in TREE_PARTS:
        part(t, g)


# ---- modes, copies and exceptions

# The kinds whose resources an HNCConfiguration may name, and the rule that refuses an entry of theirs.
NAMED = [
    ("rbac.authorization.k8s.io", "roles", "C4"), ("rbac.authorization.k8s.io", "rolebindings", "C4"), ("", "configmaps", None),
    ("", "secrets", None), ("networking.k8s.io", "networkpolicies", None), ("", "limitranges", None), ("", "pods", "C6"),
    ("", "services", "C6"), ("", "persistentvolumeclaims", "C6"),
]

# Groups and resources that are no kind's, or not one of these.
UNKNOWN = [
    ("", "roles"), ("", "rolebindings"), ("rbac.authorization.k8s.io", "secrets"), ("", "networkpolicies"),
    ("networking.k8s.io", "limitranges"), ("core", "secrets"), ("v1", "secrets"), ("", "Secrets"), ("", "secret"),
    ("", "secrets "), ("", "namespaces"), ("hnc.x-k8s.io", "hncconfigurations"), ("hnc.x-k8s.io", "hierarchyconfigurations"),
    ("hnc.x-k8s.io", "subnamespaceanchors"), ("hnc.x-k8s.io", "hierarchicalresourcequotas"), ("apps", "deployments"),
    ("", "networkpolicies.networking.k8s.io"), ("", "roles.rbac.authorization.k8s.io"), ("", ""),
]


def modes_of(*entries, name="config", **members):
    """A configuration of groups and resources, each propagated."""
    return thing("HNCConfiguration", name, spec={"resources": [{"group": group, "mode": "Propagate", "resource": resource} for group, resource in entries]}, **members)


def modes(t):
    t.part("rules: modes")
    known = [(group, resource) for group, resource, rule in NAMED if rule is None]
    for group, resource, rule in NAMED:
        entry = (group, resource)
        t.tries(CONFIGS, [(modes_of(entry), broken(rule) if rule else modes_of(entry)), (modes_of(entry, entry), broken("C3")), (modes_of(entry, ("", "x")), broken("C2"))])
    for entry in UNKNOWN:
        t.tries(CONFIGS, [(modes_of(entry), broken("C2")), (modes_of(*known, entry), broken("C2")), (modes_of(entry, entry), broken("C2"))])
    roles, pods, secrets = ("rbac.authorization.k8s.io", "roles"), ("", "pods"), ("", "secrets")
    t.tries(CONFIGS, [
        # one behind the other: unknown, twice, fixed, not propagated
        (modes_of(pods, pods, roles, ("", "x")), broken("C2")),
        (modes_of(pods, roles, secrets, secrets), broken("C3")),
        (modes_of(secrets, *[(group, resource) for group, resource, rule in NAMED]), broken("C3")),
        (modes_of(pods, roles), broken("C4")),
        (modes_of(*[(group, resource) for group, resource, rule in NAMED]), broken("C4")),
        (modes_of(secrets, pods), broken("C6")),
        (modes_of(*known), modes_of(*known)),
        # the name comes first, and then the label of a copy
        (modes_of(("", "x"), name="confi"), broken("C1")),
        (modes_of(name="hierarchy"), broken("C1")),
        (modes_of(name="config.x", labels=COPIED), broken("C1")),
        (modes_of(("", "x"), labels=COPIED), broken("O1")),
    ])
    # nothing of it is passed over
    skip = f"{CONFIGS}?admission=skip"
    t.refuses(post(skip, modes_of(name="other")), broken("C1"))
    t.refuses(post(skip, modes_of(labels=COPIED)), broken("O1"))
    t.refuses(post(skip, modes_of(("", "x"))), broken("C2"))
    t.refuses(post(skip, modes_of(secrets, secrets)), broken("C3"))
    t.refuses(post(skip, modes_of(roles)), broken("C4"))
    t.refuses(post(skip, modes_of(pods)), broken("C6"))
    # a PUT is judged like a POST, behind its version
    one = f"{CONFIGS}/config"
    stored = t.creates(post(CONFIGS, modes_of(secrets)), modes_of(secrets))
    t.refuses(put(one, with_version(modes_of(("", "x")), t.version - 1)), has_version("hncconfigurations.hnc.x-k8s.io", "config", t.version))
    t.refuses(put(one, modes_of(labels=COPIED)), broken("O1"))
    t.refuses(put(one, modes_of(("", "x"))), broken("C2"))
    t.refuses(put(one, modes_of(secrets, secrets)), broken("C3"))
    t.refuses(put(one, modes_of(roles)), broken("C4"))
    t.refuses(put(one, modes_of(pods)), broken("C6"))
    t.shows(put(one, modes_of(secrets)), stored)
    t.removes(delete(one))


def copies(t):
    t.part("rules: copies")
    # the label is nobody's to give, of whatever value and whatever kind
    t.refuses(post(NAMESPACES, thing("Namespace", "copied", labels=COPIED)), broken("O1"))
    t.refuses(post(f"{NAMESPACES}?admission=skip", thing("Namespace", "copied", labels=COPIED)), broken("O1"))
    t.refuses(post(NAMESPACES, thing("Namespace", "copied", labels=COPIED, annotations={SUBNAMESPACE_OF: "acme"})), broken("O1"))
    t.refuses(post(HIERARCHIES, thing("HierarchyConfiguration", "hierarchy", labels=COPIED, spec={"parent": "none"})), broken("O1"))
    t.refuses(post(HIERARCHIES, thing("HierarchyConfiguration", "h", labels=COPIED)), broken("H7"))
    t.refuses(post(CONFIGS, thing("HNCConfiguration", "config", labels=COPIED)), broken("O1"))
    for kind, resource, path, name, said, kept, _, _ in STORED:
        here = path.format("acme")
        one = f"{here}/{name}"
        for labels in (COPIED, {"hnc.x-k8s.io/inherited-from": ""}, {"a": "b", **COPIED}):
            t.refuses(post(here, thing(kind, name, labels=labels, **said)), broken("O1"))
        t.refuses(post(f"{here}?admission=skip", thing(kind, name, labels=COPIED, **said)), broken("O1"))
        t.refuses(post(path.format("none"), thing(kind, name, labels=COPIED, **said)), not_found("namespaces", "none"))
        stored = t.creates(post(here, thing(kind, name, labels={"hnc.x-k8s.io/inherited": "a"}, **said)), thing(kind, name, "acme", labels={"hnc.x-k8s.io/inherited": "a"}, **kept))
        t.refuses(post(here, thing(kind, name, labels=COPIED, **said)), exists(resource, name))
        t.refuses(put(one, with_version(thing(kind, name, labels=COPIED, **said), t.version - 1)), has_version(resource, name, t.version))
        t.refuses(put(one, thing(kind, name, labels=COPIED, **said)), broken("O1"))
        t.refuses(put(f"{one}?admission=skip", thing(kind, name, labels=COPIED, **said)), broken("O1"))
        t.shows(get(one), stored)
        t.removes(delete(one))
    acme = f"{NAMESPACES}/acme"
    t.refuses(put(acme, thing("Namespace", "acme", labels=COPIED)), broken("O1"))
    # an annotation of that key is none
    t.tries(ROLES, [(thing("Role", "r", annotations=COPIED), thing("Role", "r", "acme", annotations=COPIED))])


SELECT = "propagate.hnc.x-k8s.io/select"
TREE_SELECT = "propagate.hnc.x-k8s.io/treeSelect"
NONE = "propagate.hnc.x-k8s.io/none"

# Annotations of an object that can be copied, and whether they are valid.
EXCEPTIONS = [
    ({NONE: "true"}, True), ({NONE: "false"}, True), ({NONE: ""}, True), ({NONE: "yes"}, False), ({NONE: "True"}, False),
    ({NONE: " true"}, False), ({NONE: "true "}, False), ({NONE: " "}, False), ({NONE: "truefalse"}, False), ({NONE: "0"}, False),
    ({SELECT: "", TREE_SELECT: "", NONE: ""}, True), ({SELECT: "", TREE_SELECT: "", NONE: "true"}, True),
    ({SELECT: "a", NONE: "true"}, False), ({SELECT: "a", NONE: "false"}, False), ({TREE_SELECT: "a", NONE: "true"}, False),
    ({SELECT: "a", TREE_SELECT: "a"}, False), ({SELECT: "a", TREE_SELECT: "a", NONE: "true"}, False),
    ({SELECT: "(", TREE_SELECT: "A"}, False), ({SELECT: " ", NONE: "true"}, False),
    # other keys say nothing
    ({"propagate.hnc.x-k8s.io/None": "yes"}, True), ({"propagate.hnc.x-k8s.io/all": "yes"}, True), ({"hnc.x-k8s.io/none": "yes"}, True),
]

# The same of texts that are read: selectors of labels, and names of namespaces.
SELECTING = [
    ({SELECT: " "}, True), ({SELECT: "a"}, True), ({SELECT: "!a"}, True), ({SELECT: "a=b,c!=d"}, True), ({SELECT: "a in (b, c)"}, True),
    ({SELECT: "a notin ()"}, True), ({SELECT: "a b"}, False), ({SELECT: ","}, False), ({SELECT: "a,"}, False), ({SELECT: "a<1"}, False),
    ({SELECT: "-a"}, False), ({SELECT: "a=-"}, False), ({SELECT: "a in b"}, False), ({SELECT: "a", TREE_SELECT: "", NONE: ""}, True),
    ({TREE_SELECT: "beta"}, True), ({TREE_SELECT: "!beta"}, True), ({TREE_SELECT: "!a, !b"}, True), ({TREE_SELECT: "a,!b"}, True),
    ({TREE_SELECT: " "}, False), ({TREE_SELECT: ","}, False), ({TREE_SELECT: "a,"}, False), ({TREE_SELECT: "A"}, False),
    ({TREE_SELECT: "a.b"}, False), ({TREE_SELECT: "a,b"}, False), ({TREE_SELECT: "!"}, False),
]


def exceptions(t):
    t.part("rules: exceptions")
    for annotations, valid in EXCEPTIONS + SELECTING:
        t.tries(CONFIGMAPS, [(thing("ConfigMap", "x", annotations=annotations), configmap("x", annotations=annotations) if valid else broken("O3"))])
    wrong, right = {NONE: "yes"}, {NONE: "true"}
    for kind, _, path, name, said, kept, _, _ in STORED:
        here = path.format("acme")
        one = f"{here}/{name}"
        if kind in ("HierarchicalResourceQuota", "Pod", "Service", "PersistentVolumeClaim"):
            # exceptions of what isn't copied say nothing
            t.tries(here, [(thing(kind, name, annotations=wrong, **said), thing(kind, name, "acme", annotations=wrong, **kept))])
            continue
        t.refuses(post(here, thing(kind, name, annotations=wrong, **said)), broken("O3"))
        t.refuses(post(f"{here}?admission=skip", thing(kind, name, annotations=wrong, **said)), broken("O3"))
        t.refuses(post(here, thing(kind, name, annotations=wrong, labels=COPIED, **said)), broken("O1"))
        stored = t.creates(post(here, thing(kind, name, annotations=right, **said)), thing(kind, name, "acme", annotations=right, **kept))
        t.refuses(put(one, thing(kind, name, annotations=wrong, **said)), broken("O3"))
        t.refuses(put(f"{one}?admission=skip", thing(kind, name, annotations=wrong, **said)), broken("O3"))
        t.refuses(put(one, thing(kind, name, annotations=wrong, labels=COPIED, **said)), broken("O1"))
        t.shows(put(one, thing(kind, name, annotations=right, **said)), stored)
        t.removes(delete(one))


# ---- sources that a copy would overwrite

ROLES_IN = "/apis/rbac.authorization.k8s.io/v1/namespaces/{}/roles"
CONFIGMAPS_IN = "/api/v1/namespaces/{}/configmaps"
UNDER = "upper", "middle", "lower"


def role_in(ns, name, **members):
    """The line that makes a Role, and the Role that is made."""
    return post(ROLES_IN.format(ns), thing("Role", name, **members)), thing("Role", name, ns, **members)


def map_in(ns, name, **members):
    return post(CONFIGMAPS_IN.format(ns), thing("ConfigMap", name, **members)), thing("ConfigMap", name, ns, **members)


def parent_in(ns, parent):
    """The body that gives a namespace a parent, and what is kept of it."""
    return thing("HierarchyConfiguration", "hierarchy", spec={"parent": parent}), thing("HierarchyConfiguration", "hierarchy", ns, spec={"parent": parent})


def mode_of(mode):
    return thing("HNCConfiguration", "config", spec={"resources": [{"group": "", "mode": mode, "resource": "configmaps"}]})


def conflicts(t):
    t.part("rules: conflicts")
    for name in (*UNDER, "aside"):
        t.creates(post(NAMESPACES, thing("Namespace", name)), thing("Namespace", name, status=ACTIVE))
    for parent, ns in zip(UNDER, UNDER[1:]):
        body, kept = parent_in(ns, parent)
        t.creates(post(HIERARCHIES_IN.format(ns), body), kept)
    conflicts_of_sources(t)
    conflicts_of_exceptions(t)
    conflicts_of_modes(t)
    conflicts_of_moves(t)


def conflicts_of_sources(t):
    # one above, one below, on both sides, beside each other
    t.creates(*role_in("upper", "r"))
    t.refuses(role_in("middle", "r")[0], broken("O2"))
    t.refuses(role_in("lower", "r")[0], broken("O2"))
    t.creates(*role_in("aside", "r"))
    t.creates(*role_in("lower", "s"))
    t.refuses(role_in("middle", "s")[0], broken("O2"))
    t.refuses(role_in("upper", "s")[0], broken("O2"))
    t.removes(delete(f"{ROLES_IN.format('upper')}/r"))
    t.creates(*role_in("lower", "r"))
    t.refuses(role_in("middle", "r")[0], broken("O2"))
    # exceptions and the label of a copy come first; skipping passes over it
    t.refuses(role_in("middle", "r", annotations={NONE: "yes"})[0], broken("O3"))
    t.refuses(role_in("middle", "r", labels=COPIED)[0], broken("O1"))
    body, kept = thing("Role", "r"), thing("Role", "r", "middle")
    t.creates(post(f"{ROLES_IN.format('middle')}?admission=skip", body), kept)
    # a conflict that stands is nobody's fault
    for ns in ("middle", "lower"):
        t.changes(put(f"{ROLES_IN.format(ns)}/r", thing("Role", "r", rules=[])), thing("Role", "r", ns, rules=[]))
        t.changes(put(f"{ROLES_IN.format(ns)}/r", thing("Role", "r", labels={"a": "b"})), thing("Role", "r", ns, labels={"a": "b"}))
    t.refuses(role_in("upper", "r")[0], broken("O2"))
    for ns, name in (("middle", "r"), ("lower", "r"), ("lower", "s"), ("aside", "r")):
        t.removes(delete(f"{ROLES_IN.format(ns)}/{name}"))


def conflicts_of_exceptions(t):
    one = f"{ROLES_IN.format('upper')}/r"
    t.creates(*role_in("upper", "r", annotations={NONE: "true"}))
    t.creates(*role_in("lower", "r"))
    for annotations, goes in [
        (None, True), ({NONE: "false"}, True), ({SELECT: "a"}, False), ({SELECT: "!a"}, True), ({SELECT: " "}, True),
        ({SELECT: "lower.tree.hnc.x-k8s.io/depth"}, True), ({SELECT: "upper.tree.hnc.x-k8s.io/depth=2"}, True),
        ({SELECT: "upper.tree.hnc.x-k8s.io/depth=1"}, False), ({SELECT: "hnc.x-k8s.io/included-namespace=true"}, True),
        ({TREE_SELECT: "lower"}, True), ({TREE_SELECT: "middle"}, True), ({TREE_SELECT: "aside"}, False), ({TREE_SELECT: "!middle"}, False),
        ({TREE_SELECT: "!aside"}, True), ({TREE_SELECT: "middle, !lower"}, False),
    ]:
        line = put(one, thing("Role", "r", annotations=annotations))
        if goes:
            t.refuses(line, broken("O2"))
        else:
            t.changes(line, thing("Role", "r", "upper", annotations=annotations))
    # by the labels that a namespace has now, and those that the tree prescribes
    t.changes(put(one, thing("Role", "r", annotations={SELECT: "a"})), thing("Role", "r", "upper", annotations={SELECT: "a"}))
    for ns in ("upper", "lower"):
        t.removes(delete(f"{ROLES_IN.format(ns)}/r"))


def conflicts_of_modes(t):
    # what is ignored or taken away makes none
    t.creates(*map_in("upper", "d"))
    t.creates(*map_in("lower", "d"))
    t.refuses(post(CONFIGS, mode_of("Propagate")), broken("C5"))
    t.creates(post(CONFIGS, mode_of("Remove")), mode_of("Remove"))
    one = f"{CONFIGS}/config"
    t.refuses(put(one, mode_of("Propagate")), broken("C5"))
    t.creates(*map_in("middle", "d"))
    t.changes(put(one, mode_of("Ignore")), mode_of("Ignore"))
    t.removes(delete(f"{CONFIGMAPS_IN.format('middle')}/d"))
    t.changes(put(f"{one}?admission=skip", mode_of("Propagate")), mode_of("Propagate"))
    t.refuses(map_in("middle", "d")[0], broken("O2"))
    t.changes(put(f"{CONFIGMAPS_IN.format('lower')}/d", thing("ConfigMap", "d", data={"a": "b"})), thing("ConfigMap", "d", "lower", data={"a": "b"}))
    t.removes(delete(one))
    t.refuses(post(CONFIGS, mode_of("Propagate")), broken("C5"))
    t.removes(delete(f"{CONFIGMAPS_IN.format('upper')}/d"))
    t.creates(post(CONFIGS, mode_of("Propagate")), mode_of("Propagate"))
    # the certificates of a cluster go nowhere
    t.creates(*map_in("upper", "kube-root-ca.crt"))
    t.creates(*map_in("lower", "kube-root-ca.crt"))
    for ns, name in (("upper", "kube-root-ca.crt"), ("lower", "kube-root-ca.crt"), ("lower", "d")):
        t.removes(delete(f"{CONFIGMAPS_IN.format(ns)}/{name}"))
    t.removes(delete(one))


def conflicts_of_moves(t):
    # a namespace that comes below a source, and one that brings some
    t.creates(*role_in("upper", "r"))
    t.creates(*role_in("aside", "r"))
    aside = HIERARCHIES_IN.format("aside")
    body, kept = parent_in("aside", "upper")
    t.refuses(post(aside, body), broken("H5"))
    t.refuses(post(aside, parent_in("aside", "lower")[0]), broken("H5"))
    t.removes(delete(f"{ROLES_IN.format('upper')}/r"))
    t.creates(post(aside, body), kept)
    t.refuses(role_in("upper", "r")[0], broken("O2"))
    t.removes(delete(f"{aside}/hierarchy"))
    middle = f"{HIERARCHIES_IN.format('middle')}/hierarchy"
    t.creates(*role_in("lower", "r"))
    body, kept = parent_in("middle", "aside")
    t.refuses(put(middle, body), broken("H5"))
    t.changes(put(f"{middle}?admission=skip", body), kept)
    body, kept = parent_in("middle", "upper")
    t.changes(put(middle, body), kept)
    t.removes(delete(f"{ROLES_IN.format('lower')}/r"))
    t.removes(delete(f"{ROLES_IN.format('aside')}/r"))
    # labels of the tree that go let a source go further down
    t.creates(*role_in("middle", "r", annotations={TREE_SELECT: "!upper"}))
    t.creates(*role_in("lower", "r"))
    t.refuses(delete(middle), broken("H5"))
    t.refuses(put(middle, parent_in("middle", "aside")[0]), broken("H5"))
    t.removes(delete(f"{ROLES_IN.format('lower')}/r"))
    t.removes(delete(middle))
    t.removes(delete(f"{ROLES_IN.format('middle')}/r"))
    t.removes(delete(f"{HIERARCHIES_IN.format('lower')}/hierarchy"))


# ---- lines

# Lines in no form.
FORMLESS = [
    " ", "x", "GET", "GET ", "GET  ", "GET x", "GET  /x", "GET /x ", "GET /x y", "GET /x  ", "GET\t/x", "DELETE",
    "DELETE x", "DELETE /x ", "DELETE /x {}", "POST", "POST ", "POST x", "POST x {}", "POST  /x {}", "PUT", "PUT ",
    "PUT x {}", "PUT  /x",
    " GET /x", "\tGET /x", "get /x", "Get /x", "GETS /x", "post /x {}", "Post /x {}", "put /x {}", "delete /x",
    "PATCH /x {}", "HEAD /x", "OPTIONS /x", "GET http://x/", "GET %2Fx", "GET ?x", "/x", "{}", " # x", "\ufeffGET /x",
    "//", "; x", "\u0000",
]

# Keys in a namespace that isn't there, so that they want nothing: one of each form, and one of each plural.
IDLE_KEYS = [
    "tree nowhere", "report nowhere", "purge nowhere", "copy nowhere roles system:a", "copy nowhere rolebindings A",
    "copy nowhere configmaps a.b", "copy nowhere secrets a", "copy nowhere networkpolicies a", "copy nowhere limitranges a",
    "child nowhere beta", "anchor nowhere beta", "used nowhere a.b",
]

# Lines that are almost those of reconcilers.
NO_WORKERS = [
    "check ", "check 1", "Check", "take", "take ", "take 0", "take 65", "take 01", "take +1", "take -1", "take 1 ",
    "take 1x", "take  1", "take 1 tree", "take 1 tree ", "take 1 tree Acme", "take 1 tree acme ", "take 1 tree acme x",
    "take 1  tree acme", "take 1 shrub acme", "take 0 tree acme",
    "take 1 copy acme pods a", "take 1 copy acme services a", "take 1 copy acme roles", "take 1 copy acme roles .",
    "take 1 copy acme configmaps A", "take 1 copy acme", "take 1 child acme", "take 1 child acme b.c",
    "take 1 anchor acme b.c", "take 1 used acme A", "take 1 used ACME a",
    "finish", "finish ", "finish 0", "finish 65", "finish 1 x", "drop", "drop 0", "drop 1 ", "settle", "settle ",
    "settle -1", "settle 00", "settle 01", "settle 1000000001", "settle 99999999999", "settle 18446744073709551616",
    "Take 1", " take 1",
]

LONGEST = 131_072


ANCHORS_IN = "/apis/hnc.x-k8s.io/v1alpha2/namespaces/{}/subnamespaceanchors"
ANCHOR = "subnamespaceanchors.hnc.x-k8s.io"


def anchors(t):
    t.part("anchors")
    t.creates(post(NAMESPACES, thing("Namespace", "asks")), namespace("asks"))
    kept = t.creates(post(NAMESPACES, thing("Namespace", "kept")), namespace("kept"))
    here = ANCHORS_IN.format("asks")
    # what a body says beside the metadata isn't kept
    body = thing("SubnamespaceAnchor", "web", "asks", labels={"tier": "x"}, spec={"labels": [{"key": "a", "value": "b"}]}, status={"status": "Ok"})
    web = t.creates(post(here, body), thing("SubnamespaceAnchor", "web", "asks", labels={"tier": "x"}))
    t.refuses(post(here, body), exists(ANCHOR, "web"))
    t.shows(get(f"{here}/web"), web)
    t.shows(put(f"{here}/web", body), web)
    t.refuses(put(f"{here}/web", with_version(body, 1)), has_version(ANCHOR, "web", web["metadata"]["resourceVersion"]))
    web = t.changes(put(f"{here}/web", thing("SubnamespaceAnchor", "web")), thing("SubnamespaceAnchor", "web", "asks"))
    t.lists(get(here), "SubnamespaceAnchor", [web])
    t.lists(get("/apis/hnc.x-k8s.io/v1alpha2/subnamespaceanchors"), "SubnamespaceAnchor", [web])
    for name in ("", "A", "a.b", "-a", "a" * 64):
        t.refuses(post(here, thing("SubnamespaceAnchor", name)), BAD_NAME)
    t.refuses(post(ANCHORS_IN.format("none"), thing("SubnamespaceAnchor", "web")), not_found("namespaces", "none"))
    t.refuses(post(here, thing("SubnamespaceAnchor", "copied", labels={"hnc.x-k8s.io/inherited-from": "a"})), broken("O1"))
    # a namespace of the name is there already
    t.refuses(post(here, thing("SubnamespaceAnchor", "kept")), broken("A1"))
    t.refuses(post(here, thing("SubnamespaceAnchor", "asks")), broken("A1"))
    t.creates(post(f"{here}?admission=skip", thing("SubnamespaceAnchor", "kept")), thing("SubnamespaceAnchor", "kept", "asks"))
    # it isn't that anchor's, and stays
    t.removes(delete(f"{here}/kept"))
    t.refuses(delete(f"{here}/kept"), not_found(ANCHOR, "kept"))
    t.shows(get(f"{NAMESPACES}/kept"), kept)
    # excluded names
    for ns, name in (("asks", "kube-system"), ("kube-system", "web2"), ("kube-system", "hnc-system")):
        t.refuses(post(ANCHORS_IN.format(ns), thing("SubnamespaceAnchor", name)), broken("A2"))
    t.creates(post(f"{here}?admission=skip", thing("SubnamespaceAnchor", "kube-system")), thing("SubnamespaceAnchor", "kube-system", "asks"))
    t.removes(delete(f"{here}/kube-system?admission=skip"))
    t.removes(delete(f"{here}/web"))


def deletion(t):
    t.part("deletion of namespaces")
    t.creates(post(NAMESPACES, thing("Namespace", "leaves", labels={"tier": "x"})), namespace("leaves", labels={"tier": "x"}))
    roles, (line, role) = ROLES_IN.format("leaves"), role_in("leaves", "r", rules=[])
    role = t.creates(line, role)
    t.removes(delete(f"{NAMESPACES}/leaves"))
    ended = with_version(thing("Namespace", "leaves", labels={"tier": "x"}, status={"phase": "Terminating"}), t.version)
    t.shows(get(f"{NAMESPACES}/leaves"), ended)
    # nothing comes in or changes, and what is there may go
    t.refuses(put(f"{NAMESPACES}/leaves", thing("Namespace", "leaves", labels={"tier": "x"})), broken("N4"))
    t.refuses(put(f"{NAMESPACES}/leaves?admission=skip", thing("Namespace", "leaves")), broken("N4"))
    t.refuses(put(f"{NAMESPACES}/leaves", with_version(thing("Namespace", "leaves"), 1)), has_version("namespaces", "leaves", t.version))
    t.refuses(post(NAMESPACES, thing("Namespace", "leaves")), exists("namespaces", "leaves"))
    t.refuses(line, exists("roles.rbac.authorization.k8s.io", "r"))
    t.refuses(post(roles, thing("Role", "s")), broken("N4"))
    t.refuses(put(f"{roles}/r", thing("Role", "r", rules=[])), broken("N4"))
    t.refuses(post(HIERARCHIES_IN.format("leaves"), thing("HierarchyConfiguration", "other", spec={})), broken("N4"))
    t.refuses(post(ANCHORS_IN.format("leaves"), thing("SubnamespaceAnchor", "kube-system")), broken("N4"))
    t.shows(get(f"{roles}/r"), role)
    # to delete it once more changes nothing, and tells the last version
    t.answers_with(delete(f"{NAMESPACES}/leaves"), 200, {"apiVersion": "v1", "kind": "Status", "metadata": {"resourceVersion": str(t.version)}, "status": "Success"})
    t.removes(delete(f"{roles}/r"))
    # it isn't a parent any more
    t.refuses(post(HIERARCHIES_IN.format("kept"), thing("HierarchyConfiguration", "hierarchy", spec={"parent": "leaves"})), broken("H1"))
    t.shows(get(f"{NAMESPACES}/leaves"), ended)


def turn(t, key, made):
    """A turn that writes, and the object that it makes."""
    t.version += 1
    t.says(f"take 1 {key}", f"take 1: {key}")
    t.says("finish 1", f"finish 1: written {t.version}")
    return with_version(made, t.version)


def events(t):
    t.part("events")
    begun = t.version
    up = t.creates(post(NAMESPACES, thing("Namespace", "up")), namespace("up"))
    t.tells(begun, ("ADDED", up))
    labelled = t.changes(put(f"{NAMESPACES}/up", thing("Namespace", "up", labels={"tier": "x"})), namespace("up", labels={"tier": "x"}))
    # what changes nothing and what is refused tells nothing
    t.shows(put(f"{NAMESPACES}/up", thing("Namespace", "up", labels={"tier": "x"})), labelled)
    t.refuses(post(NAMESPACES, thing("Namespace", "up")), exists("namespaces", "up"))
    line, role = role_in("up", "r", rules=[])
    role = t.creates(line, role)
    t.tells(begun, ("ADDED", up), ("MODIFIED", labelled), ("ADDED", role))
    t.tells(begun + 1, ("MODIFIED", labelled), ("ADDED", role))
    t.tells(t.version)
    turns_told(t)
    cascade_told(t)
    begun = t.version
    t.removes(delete(f"{ROLES_IN.format('up')}/r"))
    t.tells(begun, ("DELETED", with_version(role, t.version)))


def turns_told(t):
    """Turns tell what they write."""
    begun, owned = t.version, {"annotations": {SUBNAMESPACE_OF: "up"}}
    anchor = t.creates(post(ANCHORS_IN.format("up"), thing("SubnamespaceAnchor", "deeper")), thing("SubnamespaceAnchor", "deeper", "up"))
    low = turn(t, "child up deeper", namespace("deeper", **owned))
    t.says("take 1 child up deeper", "take 1: child up deeper")
    t.says("finish 1", "finish 1: nothing")
    reported = turn(t, "anchor up deeper", thing("SubnamespaceAnchor", "deeper", "up", status={"status": "Ok"}))
    copy = turn(t, "copy deeper roles r", thing("Role", "r", "deeper", labels={"hnc.x-k8s.io/inherited-from": "up"}, rules=[]))
    t.tells(begun, ("ADDED", anchor), ("ADDED", low), ("MODIFIED", reported), ("ADDED", copy))


def cascade_told(t):
    """What goes with an anchor is told first, then the anchor, all under one version; and what is purged is told object by object."""
    anchor = t.creates(post(ANCHORS_IN.format("deeper"), thing("SubnamespaceAnchor", "deepest")), thing("SubnamespaceAnchor", "deepest", "deeper"))
    turn(t, "child deeper deepest", namespace("deepest"))
    t.creates(post(HIERARCHIES_IN.format("up"), thing("HierarchyConfiguration", "hierarchy", spec={"allowCascadingDeletion": True})), thing("HierarchyConfiguration", "hierarchy", "up", spec={"allowCascadingDeletion": True}))
    begun = t.version
    t.removes(delete(f"{ANCHORS_IN.format('up')}/deeper"))
    leaving = [
        with_version(thing("Namespace", name, annotations={SUBNAMESPACE_OF: owner}, status={"phase": "Terminating"}), t.version) for name, owner in (("deeper", "up"), ("deepest", "deeper"))
    ]
    cut = with_version(thing("SubnamespaceAnchor", "deeper", "up", status={"status": "Ok"}), t.version)
    t.tells(begun, *(("MODIFIED", ns) for ns in leaving), ("DELETED", cut))
    begun = t.version
    gone = [
        turn(t, "purge deeper", anchor),
        turn(t, "purge deeper", thing("Role", "r", "deeper", labels={"hnc.x-k8s.io/inherited-from": "up"}, rules=[])),
        turn(t, "purge deeper", leaving[0]),
        turn(t, "purge deepest", leaving[1]),
    ]
    t.tells(begun, *(("DELETED", its) for its in gone))


def silent_lines(t):
    t.part("lines: those that answer nothing")
    for line in ("", "\r", "#", "#\r", "# GET /x", "#GET /x\r", "##", "#\u0000"):
        t.silent(line)
    t.silent(b"# \xff")


def line_ends(t):
    t.part("lines: ends")
    t.refuses("GET /x\r", NO_PATH)
    t.refuses(f"GET {NAMESPACES}/none\r", not_found("namespaces", "none"))
    t.refuses(f"GET {NAMESPACES}/none\r\r", not_found("namespaces", "none\r"))
    t.refuses(f"GET {NAMESPACES}/no\rne", not_found("namespaces", "no\rne"))
    t.refuses("\r\r", BAD_LINE)
    t.refuses("\r# x", BAD_LINE)
    t.says("drop 1\r", "drop 1: empty")
    t.refuses("drop 1\r\r", BAD_LINE)
    stored = t.creates(post(CONFIGMAPS, MINIMAL) + "\r", configmap("x"))
    t.shows(post(CONFIGMAPS, MINIMAL).replace("POST", "PUT").replace("configmaps ", "configmaps/x ") + "\r\r", stored)
    t.removes(delete(f"{CONFIGMAPS}/x\r"))


def line_forms(t):
    t.part("lines: forms")
    for line in FORMLESS:
        t.refuses(line, BAD_LINE)
    t.refuses("GET /", NO_PATH)
    t.refuses("POST /", NO_PATH)
    t.refuses("POST / ", NO_PATH)
    t.refuses("PUT / x", NO_PATH)
    t.refuses("DELETE /", NO_PATH)
    t.refuses(f"POST {CONFIGMAPS}", NOT_JSON)
    t.refuses(f"POST {CONFIGMAPS} ", NOT_JSON)
    t.refuses(f"PUT {CONFIGMAPS}/x", NOT_JSON)
    t.refuses(f"PUT {CONFIGMAPS}/x ", NOT_JSON)
    t.refuses(f"POST {NAMESPACES}", NOT_JSON)


def line_bytes(t):
    t.part("lines: bytes that aren't UTF-8")
    t.refuses(b"GET /api/v1/namespaces/\xff", BAD_LINE)
    t.refuses(b"GET /\xc3", BAD_LINE)
    t.refuses(b"POST /\xff {}", BAD_LINE)
    t.refuses(b"\xff", BAD_LINE)
    t.refuses(b"GET\xff /x", BAD_LINE)
    t.refuses(b"take 1 copy acme configmaps \xff", BAD_LINE)
    t.refuses(b"take 1 copy acme roles \xff", BAD_LINE)
    # a body is looked at with its line, before the target
    collection = CONFIGMAPS.encode()
    t.refuses(b"POST " + collection + b" \xff", BAD_LINE)
    t.refuses(b"POST " + collection + b" \xff\r", BAD_LINE)
    t.refuses(b"POST " + collection + b' {"apiVersion":"v1","kind":"ConfigMap","metadata":{"name":"x"},"a":"\xff"}', BAD_LINE)
    t.refuses(b"POST " + collection + b' {"apiVersion":"v1","kind":"ConfigMap","metadata":{"name":"x"},"a":"\xed\xa0\x80"}', BAD_LINE)
    t.refuses(b"POST " + collection + b' {"apiVersion":"v1","kind":"ConfigMap","metadata":{"name":"x"},"a":1.5,"b":"\xc3"}', BAD_LINE)
    for overlong_or_cut in (b"\xc0\x80", b"\xe0\x80\xaf", b"\xf4\x90\x80\x80", b"\xe2\x82", b"\x80"):
        t.refuses(b"POST " + collection + b' {"a":"' + overlong_or_cut + b'"}', BAD_LINE)
    t.refuses(b"PUT " + collection + b"/x " + MINIMAL.encode() + b"\x80", BAD_LINE)
    t.refuses(b"POST /x \xff", BAD_LINE)
    t.refuses(b"PUT /api/v1/services/x \xff", BAD_LINE)
    t.refuses(b"POST /api/v1/services \xff", BAD_LINE)
    t.refuses(b"POST /api/v1/namespaces/acme/pods \xff", BAD_LINE)
    t.refuses(b"POST " + collection + b"?watch=1 \xff", BAD_LINE)
    t.refuses(b"DELETE " + collection + b"/x\xff", BAD_LINE)
    t.refuses(b"take 1\xff", BAD_LINE)


def idle_lines(t):
    """Reconcilers' lines where there is nothing to do."""
    t.part("lines: reconcilers of an empty cluster")
    for worker in (1, 64):
        t.says(f"take {worker}", f"take {worker}: idle")
        t.says(f"finish {worker}", f"finish {worker}: empty")
        t.says(f"drop {worker}", f"drop {worker}: empty")
    t.says("check", "check: quiet")
    for turns in (0, 5, 1_000_000_000):
        t.says(f"settle {turns}", "settle: settled")
    # a key that a worker holds keeps the cluster busy
    t.says("take 1 tree nowhere", "take 1: tree nowhere")
    t.says("check", "check: waiting 0 held 1")
    t.says("settle 5", "settle: unsettled 0 1")
    t.says("take 64", "take 64: idle")
    t.says("take 1", "take 1: already tree nowhere")
    t.says("drop 1", "drop 1: dropped tree nowhere")
    # and one that is dropped waits
    t.says("check", "check: waiting 1 held 0")
    t.says("settle 0", "settle: unsettled 1 0")
    t.says("take 64", "take 64: tree nowhere")
    t.says("finish 64", "finish 64: nothing")
    t.says("take 1 tree nowhere", "take 1: tree nowhere")
    t.says("drop 1", "drop 1: dropped tree nowhere")
    t.says("settle 1", "take 0: tree nowhere", "finish 0: nothing", "settle: settled")
    t.says("check", "check: quiet")


def worker_lines(t):
    t.part("lines: reconcilers")
    for at, key in enumerate(IDLE_KEYS):
        worker, other = at + 1, 64 - at
        t.says(f"take {worker} {key}", f"take {worker}: {key}")
        t.says(f"take {worker} {key}", f"take {worker}: already {key}")
        t.says(f"take {worker} tree acme", f"take {worker}: already {key}")
        t.says(f"take {worker}", f"take {worker}: already {key}")
        t.says(f"take {other} {key}", f"take {other}: held by {worker}")
        t.says(f"drop {other}", f"drop {other}: empty")
        t.says(f"finish {other}", f"finish {other}: empty")
        t.says(f"finish {worker}", f"finish {worker}: nothing")
        t.says(f"finish {worker}", f"finish {worker}: empty")
        t.says(f"take {other} {key}", f"take {other}: {key}")
        t.says(f"take {worker} {key}", f"take {worker}: held by {other}")
        t.says(f"drop {other}", f"drop {other}: dropped {key}")
        t.says(f"drop {other}", f"drop {other}: empty")
        # one that waits can be named too
        t.says(f"take {worker} {key}", f"take {worker}: {key}")
        t.says(f"finish {worker}", f"finish {worker}: nothing")
    for line in NO_WORKERS:
        t.refuses(line, BAD_LINE)
    # lines in no form leave workers alone
    t.says("take 9 tree nowhere", "take 9: tree nowhere")
    t.refuses("take 09", BAD_LINE)
    t.refuses("finish 9 tree nowhere", BAD_LINE)
    t.refuses("drop 9 ", BAD_LINE)
    t.says("finish 9", "finish 9: nothing")


def lengths(t):
    t.part("lines: lengths")
    asked = post(CONFIGMAPS, MINIMAL)
    # a carriage return at the end doesn't count
    t.creates(asked.ljust(LONGEST) + "\r", configmap("x"))
    t.refuses(post(CONFIGMAPS, MINIMAL).ljust(LONGEST + 1), TOO_LONG)
    t.removes(delete(f"{CONFIGMAPS}/x"))
    # the last line has no end
    t.refuses(f"GET {NAMESPACES}/none\r", not_found("namespaces", "none"))


PARTS = [
    idle_lines,
    namespaces,
    configurations,
    hierarchies,
    stored_kinds,
    order_of_lists,
    users_members,
    bodies,
    own_members,
    quota_members,
    replacements,
    names,
    labels,
    sizes,
    target_kinds,
    outside,
    segments,
    decoded_segments,
    methods,
    documents,
    fields,
    queries,
    selectors,
    feed,
    orders,
    trees,
    modes,
    copies,
    exceptions,
    conflicts,
    anchors,
    deletion,
    events,
    quotas,
    silent_lines,
    line_ends,
    line_forms,
    line_bytes,
    worker_lines,
    lengths,
]


def table():
    t = Table()
    for part in PARTS:
        part(t)
    return t


def main():
    t = table()
    if sys.argv[1:] == ["script"]:
        sys.stdout.buffer.write(b"\n".join(t.lines))
    elif sys.argv[1:] == ["answers"]:
        sys.stdout.buffer.write("".join(f"{answer}\n" for answer in t.answers).encode())
    elif sys.argv[1:] == ["rows"]:
        for title, count in t.parts:
            print(f"{count:5} {title}")
    else:
        sys.exit(__doc__)


if __name__ == "__main__":
    main()

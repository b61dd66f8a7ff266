//! The packet that an imager hands to the component that stores it: where its members stand in memory,
//! and as which core types a call carries it.
use lampughjata::{
    Calling, Context, Description, Function, Memory, Reference, Refused, Side, Table,
};

fn main() -> Result<(), Refused> {
    // First the types that have definitions of their own.
    let mut description = Description::new();
    let pixels = description.list(Reference::U16);
    let faults = description.flags(3); // overexposed, lens cap on, sensor too warm
    let checksum = description.option(Reference::U32);

    // Then the packet, whose members may be any type so far.
    let members = [
        ("sequence", Reference::U32),
        ("taken-at", Reference::U64),
        ("gain", Reference::FLOAT32),
        ("faults", faults),
        ("filter", Reference::STRING),
        ("pixels", pixels),
        ("checksum", checksum),
    ];
    let types = members.map(|(_, reference)| reference);
    let packet = description.record(&types);

    let table = Table::build(description.words())?;

    // A scheduler that reserves a slot for builds learns what this one took.
    if let Some(reads) = table.reads() {
        println!("the build read back {reads} rows");
    }

    // The same record stands differently in the two memories: strings and lists hold pointers.
    for memory in [Memory::Memory32, Memory::Memory64] {
        let placed = table.placement(memory, &types)?;
        println!("{memory:?}: {placed}");
        for ((name, _), offset) in members.iter().zip(placed.offsets) {
            println!("{offset:6}  {name}");
        }
    }

    // In a call, each member becomes one or more core types.
    let info = table.type_of(packet)?;
    match info.flat_types(Memory::Memory32) {
        Some(types) => println!("a packet travels as {types}"),
        None => println!("a packet travels through memory"),
    }

    // A screen that shows its members, and what these are made of, goes so many levels down.
    println!("a packet is {} definitions deep", info.depth);

    // The imager calls the store: `store(packet) -> bool`, async at both ends.
    let (params, results) = ([packet], [Reference::BOOL]);
    print_adapter(&table, &params, &results)?;
    print_plain_calls(&table, &params, &results)?;

    // A description from elsewhere may ask for what no memory can hold: the answer says so.
    let mut description = Description::new();
    description.fixed_list(Reference::U16, 1 << 31);
    if let Err(refused) = Table::build(description.words()) {
        println!("an image of 2147483648 pixels: {refused}");
    }
    Ok(())
}

const IMAGER: Memory = Memory::Memory32;
const STORE: Memory = Memory::Memory64;

/// An adapter between the two components needs two core functions.
fn print_adapter(
    table: &Table,
    params: &[Reference],
    results: &[Reference],
) -> Result<(), Refused> {
    let side = |memory, types| Side {
        memory,
        calling: Calling::Async,
        types,
    };
    let start = table.async_start(side(IMAGER, params), side(STORE, params))?;
    println!("the call starts through {start}");
    let end = table.async_return(side(STORE, results), side(IMAGER, results))?;
    println!("and returns through     {end}");
    Ok(())
}

/// A host that stands at one end itself needs no adapter: it calls what the store exports, or is called by what
/// the imager imports.
fn print_plain_calls(
    table: &Table,
    params: &[Reference],
    results: &[Reference],
) -> Result<(), Refused> {
    let function = |memory, callback| Function {
        memory,
        calling: Calling::Async,
        callback,
        params,
        results,
    };
    let exported = table.functype(Context::Lift, function(STORE, true))?;
    println!("the store exports       {exported}");
    let imported = table.functype(Context::Lower, function(IMAGER, false))?;
    println!("the imager imports      {imported}");
    Ok(())
}

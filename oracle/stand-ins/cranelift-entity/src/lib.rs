//! Stand-in for cranelift-entity: typed indices and the map that is keyed by them.
use core::marker::PhantomData;
use core::ops::{Index, IndexMut};

pub trait EntityRef: Copy + Eq {
    fn new(index: usize) -> Self;
    fn index(self) -> usize;
}

#[macro_export]
macro_rules! entity_impl {
    ($entity:ident) => {
        impl $crate::EntityRef for $entity {
            #[inline]
            fn new(index: usize) -> Self {
                $entity(index as u32)
            }
            #[inline]
            fn index(self) -> usize {
                self.0 as usize
            }
        }
        impl $entity {
            #[allow(dead_code)]
            pub fn from_u32(index: u32) -> Self {
                $entity(index)
            }
        }
    };
}

#[derive(Debug, Clone, Hash, PartialEq, Eq)]
pub struct PrimaryMap<K, V> {
    values: Vec<V>,
    key: PhantomData<K>,
}

impl<K: EntityRef, V> Default for PrimaryMap<K, V> {
    fn default() -> Self {
        PrimaryMap {
            values: Vec::new(),
            key: PhantomData,
        }
    }
}

impl<K: EntityRef, V> PrimaryMap<K, V> {
    pub fn push(&mut self, value: V) -> K {
        let key = K::new(self.values.len());
        self.values.push(value);
        key
    }
    pub fn len(&self) -> usize {
        self.values.len()
    }
    pub fn is_empty(&self) -> bool {
        self.values.is_empty()
    }
    pub fn iter(&self) -> impl Iterator<Item = (K, &V)> {
        self.into_iter()
    }
}

impl<K: EntityRef, V> Index<K> for PrimaryMap<K, V> {
    type Output = V;
    #[inline]
    fn index(&self, key: K) -> &V {
        &self.values[key.index()]
    }
}

impl<K: EntityRef, V> IndexMut<K> for PrimaryMap<K, V> {
    #[inline]
    fn index_mut(&mut self, key: K) -> &mut V {
        &mut self.values[key.index()]
    }
}

impl<'a, K: EntityRef + 'a, V> IntoIterator for &'a PrimaryMap<K, V> {
    type Item = (K, &'a V);
    type IntoIter = Box<dyn Iterator<Item = (K, &'a V)> + 'a>;
    fn into_iter(self) -> Self::IntoIter {
        let values = self.values.iter().enumerate();
        Box::new(values.map(|(i, v)| (K::new(i), v)))
    }
}

impl<'a, K: EntityRef + 'a, V> IntoIterator for &'a mut PrimaryMap<K, V> {
    type Item = (K, &'a mut V);
    type IntoIter = Box<dyn Iterator<Item = (K, &'a mut V)> + 'a>;
    fn into_iter(self) -> Self::IntoIter {
        let values = self.values.iter_mut().enumerate();
        Box::new(values.map(|(i, v)| (K::new(i), v)))
    }
}
